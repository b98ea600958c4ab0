//! Rules 18 to 20 in their places: each rule with those before and after it, sheets damaged at every offset, and what each refusal leaves in lent memory
//! (which every call here compares).

mod common;

use common::program::oracle;
use common::reference::sheets::{breaks_18, sheet, with_contents, CLOSED, DELAYED};
use common::reference::{self, WORDS};
use common::sheets::{Line, SheetCase};
use common::{damaged, networks, OracleCase};
use jukesogbi::core::Refused;

/// How often each rule was given, with 0 for none.
#[derive(Default)]
struct Given([u64; 22]);

impl Given {
    fn count<V>(&mut self, result: Result<V, u32>) -> u32 {
        let rule = result.err().unwrap_or(0);
        self.0[rule as usize] += 1;
        rule
    }

    fn assert_met(&self, rules: &[usize]) {
        println!("given by rule: {:?}", self.0);
        assert!(rules.iter().all(|&rule| self.0[rule] > 0), "{:?}", self.0);
    }
}

// ---- Each rule with its neighbours ----

/// Those that a call and its sheet can break, in checking order; the last is the way's alone.
const ORDER: [u32; 6] = [12, 18, 19, 20, 14, 15];

/// Fork's oracle has 5 places and 5 roads.
fn lines_with(faults: &[u32]) -> Vec<Line> {
    let mut lines = vec![(DELAYED, 1, 7), (CLOSED, 3, 0)];
    let wrong = [(20, (DELAYED, 4, 100_000)), (19, (CLOSED, 5, 0)), (18, (CLOSED, 2, 1))];
    lines.extend(wrong.into_iter().filter(|(rule, _)| faults.contains(rule)).map(|(_, line)| line));
    lines
}

/// Every set of faults: the first in checking order is given, whichever line it stands in.
#[test]
fn the_first_broken_rule() {
    let case = OracleCase::new(|| "Fork".to_string(), oracle(&networks::fork(), 6));
    let (n, words) = (5, case.words());
    let mut given = Given::default();
    for set in 0..1 << ORDER.len() {
        let faults: Vec<u32> = (0..ORDER.len()).filter(|k| set >> k & 1 == 1).map(|k| ORDER[k]).collect();
        let first = |rules: &[u32]| ORDER.iter().find(|rule| rules.contains(rule) && faults.contains(rule)).copied().unwrap_or(0);
        let lines = lines_with(&faults);
        for turn in 0..lines.len() {
            let turned = [&lines[turn..], &lines[..turn]].concat();
            let under = SheetCase::new(&case, move || format!("lines turned by {turn}"), sheet(&turned));
            let (s, lent) = (if faults.contains(&12) { n } else { 0 }, if faults.contains(&14) { words - 1 } else { words });
            let room = if faults.contains(&15) { 7 } else { 8 };
            for (s, t) in [(s, 4), (4, s)] {
                let at = format!("faults {faults:?}, {turned:?}, {s} to {t}");
                assert_eq!(given.count(under.time(s, t, lent).result), first(&ORDER[..5]), "{at}");
                assert_eq!(given.count(under.way(s, t, lent, room).result), first(&ORDER), "{at}");
                let mut opened = case.open(words).unwrap();
                assert_eq!(given.count(opened.time_under(&under, s, t)), first(&[12, 18, 19, 20]), "{at}");
                assert_eq!(given.count(opened.way_under(&under, s, t, room)), first(&[12, 18, 19, 20, 15]), "{at}");
                // It answers as before, under the sheet and without.
                assert_eq!(opened.time(0, 4).map(|a| a.seconds()), Ok(Some(11)));
            }
        }
    }
    given.assert_met(&[0, 12, 14, 15, 18, 19, 20]);
}

/// The oracle's own rules come before all of these.
#[test]
fn rules_of_the_oracle_come_first() {
    for (rule, bytes) in damaged::forks() {
        let case = OracleCase::new(move || format!("an oracle that breaks {rule}"), bytes);
        for faults in [&[][..], &[18], &[19], &[20], &[18, 19, 20]] {
            for bytes in [sheet(&lines_with(faults)), Vec::new()] {
                let under = SheetCase::new(&case, || "a sheet".to_string(), bytes);
                for (s, words) in [(0, 40), (5, 40), (0, 0)] {
                    assert_eq!(under.time(s, 4, words).result.err(), Some(rule));
                    assert_eq!(under.way(s, 4, words, 0).result.err(), Some(rule));
                }
            }
        }
    }
}

/// A later line does not help an earlier one over 18 and 19, which look at all lines; over 20 it may, which goes by the line that holds.
#[test]
fn lines_that_do_not_hold() {
    let case = OracleCase::new(|| "Fork".to_string(), oracle(&networks::fork(), 6));
    for after in [(CLOSED, 4, 0), (DELAYED, 4, 3)] {
        assert_eq!(rule(&case, &[(CLOSED, 4, 1), after]), 18);
        assert_eq!(rule(&case, &[(0, 4, 0), after]), 18);
        assert_eq!(rule(&case, &[(CLOSED, 5, 0), after, (DELAYED, 5, 0)]), 19);
        assert_eq!(rule(&case, &[(DELAYED, 4, 100_000), after]), 0);
        // A closure holds over what comes after it, a delay does not.
        assert_eq!(rule(&case, &[after, (DELAYED, 4, 100_000)]), if after.0 == CLOSED { 0 } else { 20 });
        assert_eq!(rule(&case, &[after, (DELAYED, 4, 99_999)]), 0);
    }
}

/// The rule that a sheet of these lines breaks, by both kinds of calls and for time and way, or 0.
fn rule(case: &OracleCase, lines: &[Line]) -> u32 {
    let text = format!("lines {lines:?}");
    let (under, mut opened) = (SheetCase::new(case, move || text.clone(), sheet(lines)), case.open(case.words()).unwrap());
    let (time, way) = (opened.time_under(&under, 0, 4), opened.way_under(&under, 0, 4, 10));
    assert_eq!(time.err(), way.err(), "{lines:?}");
    time.err().unwrap_or(0)
}

/// A delay over the limit gives 20 exactly where no line closes its road and it is the last of its delays: every list of up to five lines about one road,
/// among them two such delays. On a road that is left out each is refused by 19, whatever holds.
#[test]
fn twenty_by_the_line_that_holds() {
    let [open, without] = [networks::fork(), networks::fork_without_4()].map(|plan| OracleCase::new(|| "Fork".to_string(), oracle(&plan, 6)));
    let choices = [(CLOSED, 4, 0), (DELAYED, 4, 3), (DELAYED, 4, 100_000), (DELAYED, 4, u32::MAX)];
    for count in 0..=5u32 {
        for code in 0..4usize.pow(count) {
            let lines: Vec<Line> = (0..count).map(|k| choices[code / 4usize.pow(k) % 4]).collect();
            let over = lines.last().is_some_and(|line| line.2 >= 100_000) && !lines.contains(&choices[0]);
            // A line about another road, before or behind, changes nothing.
            for beside in [&[][..], &[(CLOSED, 3, 0)], &[(DELAYED, 1, 9)]] {
                for lines in [[beside, &lines].concat(), [&lines, beside].concat()] {
                    assert_eq!((rule(&open, &lines), rule(&without, &lines)), (if over { 20 } else { 0 }, if count > 0 { 19 } else { 0 }), "{lines:?}");
                }
            }
        }
    }
}

// ---- Damaged sheets ----

/// Asks all of a damaged sheet, and whether it is one: of the host's own question as well.
fn ask(case: &OracleCase, name: impl Fn() -> String + 'static, bytes: Vec<u8>, given: &mut Given) -> u32 {
    let is_sheet = jukesogbi::sheet::checked(&bytes);
    assert_eq!(is_sheet, if breaks_18(&bytes) { Err(Refused(18)) } else { Ok(()) }, "{}", name());
    let under = SheetCase::new(case, name, bytes);
    let mut opened = case.open(case.words()).unwrap();
    let _ = (opened.time_under(&under, 4, 0), opened.way_under(&under, 0, 4, 10));
    given.count(under.way(0, 4, case.words(), 0).result);
    given.count(under.time(0, 4, case.words() - 1).result);
    given.count(under.time(0, 4, WORDS * 5).result)
}

/// The lines of Fork's damaged sheets: each of the two kinds twice, one a delay of a road that the line before it closes.
fn sample() -> Vec<u8> {
    sheet(&[(DELAYED, 0, 3), (CLOSED, 3, 0), (DELAYED, 3, 4_660), (CLOSED, 1, 0)])
}

#[test]
fn every_byte_and_value() {
    let case = OracleCase::new(|| "Fork".to_string(), oracle(&networks::fork(), 6));
    let (file, mut given) = (sample(), Given::default());
    for at in 0..file.len() {
        for value in 0..=255 {
            let mut bytes = file.clone();
            bytes[at] = value;
            let rule = ask(&case, move || format!("byte {at} set to {value}"), bytes, &mut given);
            assert!(at >= 11 || (rule == 18) == (value != file[at]), "byte {at} set to {value}: {rule}");
        }
    }
    given.assert_met(&[0, 14, 15, 18, 19, 20]);
}

#[test]
fn cut_extended_and_moved() {
    let case = OracleCase::new(|| "Fork".to_string(), oracle(&networks::fork(), 6));
    let (file, mut given) = (sample(), Given::default());
    for size in 0..file.len() {
        assert_eq!(ask(&case, move || format!("first {size} bytes"), file[..size].to_vec(), &mut given), 18);
    }
    for more in 1..23 {
        for filler in [0, 1, 2, 255] {
            let bytes = [&file[..], &vec![filler; more]].concat();
            assert_eq!(ask(&case, move || format!("and {more} times {filler}"), bytes, &mut given), 18);
        }
    }
    assert_eq!(ask(&case, || "twice".to_string(), [&file[..], &file].concat(), &mut given), 18);
    // Contents that join or nearly do, before any number of bytes.
    for body in 0..40 {
        for filler in [0, 1, 2, 255] {
            let rule = ask(&case, move || format!("a body of {body} times {filler}"), with_contents(vec![filler; body]), &mut given);
            assert!(rule == 18 || body == 0 || body % 7 == 0 && filler == 2, "a body of {body} times {filler}: {rule}");
        }
    }
    // Offset and length changed, together too, so that a sum of 32 bits would come round.
    for by in [1, 7, 11, 28, 1 << 8, 1 << 31, u32::MAX, u32::MAX - 10] {
        for (offset, length) in [(by, 0), (0, by), (by, by), (by, by.wrapping_neg())] {
            let mut bytes = file.clone();
            for (at, by) in [(3, offset), (7, length)] {
                let number = reference::number_32(&bytes, at).wrapping_add(by);
                bytes[at..at + 4].copy_from_slice(&number.to_le_bytes());
            }
            assert_eq!(ask(&case, move || format!("offset by {offset}, length by {length}"), bytes, &mut given), 18);
        }
    }
    // Other files.
    for (name, bytes) in [("network", networks::fork().bytes()), ("oracle", oracle(&networks::fork(), 6))] {
        assert_eq!(ask(&case, move || name.to_string(), bytes, &mut given), 18);
    }
}

/// Lines left out, repeated, and in another order.
#[test]
fn lines_moved_about() {
    let case = OracleCase::new(|| "Fork".to_string(), oracle(&networks::fork(), 6));
    let (file, mut given) = (sample(), Given::default());
    let lines: Vec<&[u8]> = file[11..].chunks(7).collect();
    let mut attempt = |order: Vec<usize>| {
        let body = order.iter().flat_map(|&k| lines[k]).copied().collect();
        assert_eq!(ask(&case, move || format!("lines {order:?}"), with_contents(body), &mut given), 0);
    };
    // Every list of up to four of the lines.
    for count in 0..=4u32 {
        for code in 0..4usize.pow(count) {
            attempt((0..count).map(|k| code / 4usize.pow(k) % 4).collect());
        }
    }
}
