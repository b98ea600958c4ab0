//! The command that compares two oracles.

use crate::args::Call;
use crate::input::{self, title, Input};
use crate::output::complain;
use crate::progress::Clock;
use crate::stop::{fault, Done, Stop};
use jukesogbi::compare::{compare, Rise};
use jukesogbi::files::node_count;
use jukesogbi::oracle::Oracle;

/// A line for each sort of pairs, and one for the largest rise.
pub fn run(call: &mut Call) -> Done {
    input::one_stream([("the first oracle", Some(call.words[0].as_os_str())), ("the second oracle", Some(call.words[1].as_os_str()))])?;
    let (first, second) = (call.oracle(0)?, call.oracle(1)?);
    let (before, after) = (open(call, 0, &first)?, open(call, 1, &second)?);
    let clock = Clock::start("comparing");
    let compared = compare(&before, &after);
    drop(clock);
    let Some(found) = compared else {
        let has = |k: usize, oracle: &[u8]| format!("{} has {} places", title(&call.words[k]).display(), node_count(oracle));
        return fault(format!("{} and {}: only oracles with the same number of places are compared", has(0, &first), has(1, &second)));
    };
    for (what, count) in [
        ("pairs", found.pairs()),
        ("slower", found.slower),
        ("as quick", found.as_quick),
        ("quicker", found.quicker),
        ("newly none", found.newly_none),
        ("newly reachable", found.newly_reachable),
        ("none in both", found.none),
    ] {
        call.out.line(format_args!("{what} {count}"))?;
    }
    match found.largest {
        Some(Rise { seconds, pair: (s, t) }) => call.out.line(format_args!("largest rise {seconds} from {s} to {t}")),
        None => call.out.line("largest rise -"),
    }
}

/// Which of the two is refused is told before the rule.
fn open<'a>(call: &Call, k: usize, oracle: &'a Input) -> Result<Oracle<'a>, Stop> {
    let opened = Oracle::open_in(&oracle[..], call.lend.words(oracle)?);
    if opened.is_err() {
        complain(format_args!("{} is refused:", title(&call.words[k]).display()));
    }
    oracle.judged(opened)
}
