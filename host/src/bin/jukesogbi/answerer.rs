//! Pairs from standard input, answered one a line from an oracle that is checked once. Each answer is written before the next line is waited for, so that
//! a program can hold the command open and converse.

use crate::args::Call;
use crate::basis::Basis;
use crate::lines::{shown, Line, Lines, LONGEST};
use crate::output::complain;
use crate::questions::{way_reply, way_size};
use crate::stop::{fault, Done, Stop};
use jukesogbi::core::Refused;
use jukesogbi::form::NUMBER_SIZE;
use jukesogbi::oracle::Oracle;
use jukesogbi::{files, text};
use std::io;

/// A line of standard output, and perhaps one of standard error.
pub struct Reply {
    pub line: String,
    pub note: Option<String>,
}

impl Reply {
    fn plain(line: String) -> Reply {
        Reply { line, note: None }
    }
}

/// What standard input has.
const PAIRS: &str = "the pairs";

/// Stands for the answer to a line that is no question.
const WRONG: &str = "wrong";

pub fn times(call: &mut Call) -> Done {
    let basis = Basis::beside_lines(call, PAIRS)?;
    let opened = basis.open(&call.lend)?;
    answer(call, opened, |oracle, s, t| basis.opened_time(oracle, s, t).map(|a| Reply::plain(text::answer(&a))))
}

/// This question takes no words, so those lent are enough, whatever their number.
pub fn fars(call: &mut Call) -> Done {
    let o = Basis::beside_lines(call, PAIRS)?.oracle;
    let opened = o.judged(Oracle::open(&o[..]))?;
    answer(call, opened, |oracle, s, t| oracle.far(s, t).map(|a| Reply::plain(text::answer(&a))))
}

pub fn ways(call: &mut Call) -> Done {
    let basis = Basis::beside_lines(call, PAIRS)?;
    let opened = basis.open(&call.lend)?;
    let mut out = call.lend.room(way_size(&basis.oracle))?;
    answer(call, opened, |oracle, s, t| {
        let nodes = basis.opened_way(oracle, s, t, &mut out)?;
        Ok(way_reply(&files::numbers(&out[..NUMBER_SIZE * nodes]), s, t))
    })
}

/// Each line that is not blank has one answer: what `ask` says, `refused N`, or `wrong`.
fn answer(call: &mut Call, mut oracle: Oracle, mut ask: impl FnMut(&mut Oracle, u32, u32) -> Result<Reply, Refused>) -> Done {
    let mut lines = Lines::of(io::stdin().lock());
    let (mut refused, mut wrong) = (false, false);
    loop {
        if !lines.waiting() {
            call.out.flush()?;
        }
        let asked = match lines.next().or_else(|e| fault(format!("cannot read standard input: {e}")))? {
            Some(line) => pair(line),
            None => break,
        };
        let reply = match asked {
            Ok(None) => continue,
            Ok(Some((s, t))) => ask(&mut oracle, s, t).unwrap_or_else(|r| {
                refused = true;
                Reply { line: format!("refused {}", r.0), note: Some(format!("{s} {t}: {r}")) }
            }),
            Err(cause) => {
                wrong = true;
                Reply { line: WRONG.to_string(), note: Some(cause) }
            }
        };
        if let Some(note) = reply.note {
            complain(format_args!("line {}: {note}", lines.number));
        }
        call.out.line(reply.line)?;
    }
    call.out.flush()?;
    if refused || wrong { Err(Stop::Answered { wrong }) } else { Ok(()) }
}

/// The pair on a line, none on a blank one, or what is wrong.
pub fn pair(line: Line) -> Result<Option<(u32, u32)>, String> {
    let Line::Whole(bytes) = line else { return Err(format!("longer than {LONGEST} bytes")) };
    let mut words = std::str::from_utf8(bytes).map_err(|_| no_pair(bytes))?.split_whitespace();
    match (words.next(), words.next(), words.next()) {
        (None, ..) => Ok(None),
        (Some(s), Some(t), None) => match (s.parse(), t.parse()) {
            (Ok(s), Ok(t)) => Ok(Some((s, t))),
            _ => Err(no_pair(bytes)),
        },
        _ => Err(no_pair(bytes)),
    }
}

fn no_pair(bytes: &[u8]) -> String {
    format!("`{}` is no pair `S T` of numbers from 0 to {}", shown(bytes), u32::MAX)
}
