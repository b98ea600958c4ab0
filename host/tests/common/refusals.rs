//! Files that are refused by one rule in every call, whatever the call itself breaks, with nothing written (which every call here compares).

use super::reference::sheets::{sheet, CLOSED, DELAYED};
use super::reference::wages::legs;
use super::reference::Outcome;
use super::sheets::SheetCase;
use super::{NetworkCase, OracleCase};

/// A refusal by this rule, and nothing written.
pub fn refused<V: std::fmt::Debug>(outcome: &Outcome<V>, rule: u32, at: &str) {
    assert!(matches!(outcome.result, Err(given) if given == rule), "{at}: {:?}, not {rule}", outcome.result);
    assert!(outcome.zeroed == 0 && outcome.written.is_empty(), "{at}");
}

/// Every call over this file as an oracle of about five places, with calls that break later rules, is refused by this rule.
pub fn every_question(name: &str, oracle: Vec<u8>, rule: u32) {
    let text = name.to_string();
    let case = OracleCase::new(move || text.clone(), oracle);
    let sheets = [sheet(&[]), sheet(&[(DELAYED, 1, 3)]), sheet(&[(CLOSED, 60_000, 0)]), vec![0]];
    let under = sheets.map(|bytes| SheetCase::new(&case, || "a sheet".to_string(), bytes));
    for words in [0, 39, 40, 100] {
        refused(&case.audit(words), rule, name);
        assert_eq!(case.open(words).err(), Some(rule), "{name}");
        for (s, t) in [(0, 4), (0, 3), (1, 1), (5, 0), (0, u32::MAX)] {
            refused(&case.time(s, t, words), rule, name);
            refused(&case.far(s, t), rule, name);
            refused(&case.list(t), rule, name);
            refused(&case.way(s, t, words, 0), rule, name);
            refused(&case.way(s, t, words, 10), rule, name);
            for under in &under {
                refused(&under.time(s, t, words), rule, name);
                refused(&under.way(s, t, words, 10), rule, name);
            }
        }
        for (starts, ends) in [(&[0, 1][..], &[4][..]), (&[], &[0]), (&[0; 13], &[0]), (&[5], &[0])] {
            refused(&case.block(starts, ends, words), rule, name);
        }
        for legs in [vec![], legs(&[(0, 4), (1, 1)]), legs(&[(5, 0)]), vec![0; 5], legs(&[(0, 1); 1_001])] {
            refused(&case.wages(&legs, words, 0), rule, name);
            refused(&case.wages(&legs, words, 5_000), rule, name);
        }
    }
}

/// Building from this file of about five places is refused by this rule, with words and room enough and without.
pub fn build(name: &str, network: Vec<u8>, g: u32, rule: u32) {
    let text = name.to_string();
    let case = NetworkCase::new(move || text.clone(), network);
    for (words, room) in [(40, 1_000), (39, 1_000), (40, 0), (0, 0)] {
        refused(&case.build(g, words, room), rule, name);
    }
}
