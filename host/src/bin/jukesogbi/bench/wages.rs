//! A full wages sheet beside single answers for its legs.

use super::{answered, open, timed, Case};
use crate::output::Output;
use crate::stop::Done;
use jukesogbi::form::MAX_LEGS;
use jukesogbi::sample::Random;
use jukesogbi::wages::{self, Wages};
use jukesogbi::{core, files};
use std::time::Duration;

/// A row to be shown later: its name, and the times of the sheet and of the single answers.
pub struct Row(String, (Duration, Duration));

impl Row {
    pub fn show(&self, out: &mut Output) -> Done {
        answered(out, &self.0, MAX_LEGS, self.1)
    }
}

/// As many random legs as may be, over an opened oracle, and by the call that checks it first; the single answers are over an opened one for both.
pub fn rows(case: &Case) -> [Row; 2] {
    let (o, mut random) = (&case.oracle, Random(7));
    let mut place = || random.below(files::node_count(o) as u64) as u16;
    let pairs: Vec<(u16, u16)> = (0..MAX_LEGS).map(|_| (place(), place())).collect();
    let (legs, mut work) = (wages::legs(&pairs), vec![0; files::words_needed(o)]);
    let (mut opened, mut beside, mut out) = (open(case), open(case), vec![0; wages::size(&legs)]);
    let mut single = Vec::new();
    let mut ask_each = || single = pairs.iter().map(|&(s, t)| beside.time(s.into(), t.into()).unwrap().seconds()).collect();
    let mut ask = |what: &str, whole: &mut dyn FnMut(&mut [u8]) -> usize| {
        let mut size = 0;
        let times = timed(9, || size = whole(&mut out), &mut ask_each);
        (Row(format!("{MAX_LEGS} legs{what}, {}", case.name), times), Wages::of(&out[..size]))
    };
    let (row, by_opened) = ask("", &mut |out| opened.wages(&legs, out).unwrap());
    let (checked_row, by_call) = ask(" with the check", &mut |out| core::wages(o, &legs, &mut work, out).unwrap());
    let none = single.iter().filter(|time| time.is_none()).count();
    let total = single.iter().flatten().map(|&seconds| seconds as u64).sum();
    let expected = Wages { times: single, none: none as u32, total };
    assert!(by_opened == expected && by_call == expected, "the wages and the single answers differ");
    [row, checked_row]
}
