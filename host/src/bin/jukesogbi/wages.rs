//! The command that answers the legs of a wages sheet, in one call of the core.

use crate::answerer::pair;
use crate::args::Call;
use crate::basis::Basis;
use crate::input;
use crate::lines::Lines;
use crate::stop::{fault, Done};
use jukesogbi::wages::{self, Legs, Wages};
use jukesogbi::{core, text};
use std::ffi::OsStr;
use std::io::{self, Read};

/// A line for each leg, and one for all. Every line of standard input is read before the core is asked, so nothing is printed beside a wrong one.
pub fn run(call: &mut Call) -> Done {
    let o = Basis::beside_lines(call, "the legs")?.oracle;
    let legs = match input::read(OsStr::new("-"), |from, _| entered(from))? {
        Ok(legs) => legs.bytes(),
        Err(cause) => return fault(format!("standard input, {cause}")),
    };
    let (mut work, mut out) = (call.lend.words(&o)?, call.lend.room(wages::size(&legs))?);
    let size = o.judged(core::wages(&o, &legs, &mut work, &mut out))?;
    let Wages { times, none, total } = Wages::of(&out[..size]);
    times.into_iter().try_for_each(|time| call.out.line(text::number(time)))?;
    call.out.line(format_args!("none {none} total {total}"))
}

/// The legs of a text, or the number of a line and what is wrong with it. A blank line is wrong too, unlike among pairs: what is printed answers what was
/// entered line by line.
fn entered(from: &mut dyn Read) -> io::Result<Result<Legs, String>> {
    let (mut lines, mut legs) = (Lines::of(from), Legs::default());
    while let Some(line) = lines.next()? {
        match pair(line).and_then(|pair| pair.ok_or("blank, and no leg `S T`".into())) {
            Ok((s, t)) => legs.put(s, t),
            Err(cause) => return Ok(Err(format!("line {}: {cause}", lines.number))),
        }
    }
    Ok(Ok(legs))
}
