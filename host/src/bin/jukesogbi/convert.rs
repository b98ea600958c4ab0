//! The converter's commands: an old network without its closed roads, and a day sheet of it that goes by the new numbers.

use crate::args::Call;
use crate::input::{self, Input};
use crate::stop::Done;
use jukesogbi::core::{self, Refused};
use jukesogbi::files::Kind;
use jukesogbi::sheet::FORM;

/// What is left takes no more bytes than the whole.
pub fn network(call: &mut Call) -> Done {
    let network = call.network(0)?;
    let mut out = call.lend.room(network.len())?;
    let size = network.judged(core::convert(&network, &mut out))?;
    call.deliver(1, &out[..size], &report(size))
}

pub fn sheet(call: &mut Call) -> Done {
    input::one_stream([("the network", Some(call.words[0].as_os_str())), ("the sheet", Some(call.words[1].as_os_str()))])?;
    let (network, sheet) = (call.network(0)?, Input::read(&call.words[1], Kind::Sheet)?);
    let mut out = call.lend.room(sheet.len())?;
    let verdict = core::convert_sheet(&network, &sheet, &mut out);
    let judge = if verdict == Err(Refused(FORM)) { &sheet } else { &network };
    let size = judge.judged(verdict)?;
    call.deliver(2, &out[..size], &report(size))
}

fn report(size: usize) -> String {
    format!("converted {size} bytes")
}
