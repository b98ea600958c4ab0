//! The command line of the proved core: how a command ends, and with which status.

mod answerer;
mod args;
mod basis;
mod bench;
mod commands;
mod compare;
mod convert;
mod demo;
mod input;
mod lines;
mod making;
mod output;
mod progress;
mod questions;
mod replace;
mod sheets;
mod stop;
mod system;
mod texts;
mod wages;

use output::{complain, Output};
use std::process::ExitCode;
use stop::{Done, Stop};

fn main() -> ExitCode {
    system::prepare();
    let mut out = Output::standard();
    let done = commands::run(std::env::args_os().skip(1), &mut out);
    ExitCode::from(status(done, &mut out))
}

/// Says why a command ended early. Its output is written before it is said to be done.
fn status(done: Done, out: &mut Output) -> u8 {
    match done.and_then(|()| out.flush()) {
        Ok(()) | Err(Stop::Closed) => 0,
        Err(Stop::Answered { wrong: false }) => 1,
        Err(Stop::Answered { wrong: true }) => 2,
        Err(Stop::Refused(rule, note)) => {
            complain(rule);
            note.into_iter().for_each(complain);
            match out.say(format_args!("refused {}", rule.0)) {
                Err(Stop::Fault(text)) => fault_status(&text),
                _ => 1,
            }
        }
        Err(Stop::Fault(text) | Stop::Slip(text)) => fault_status(&text),
    }
}

fn fault_status(text: &str) -> u8 {
    complain(format_args!("jukesogbi: {text}"));
    2
}
