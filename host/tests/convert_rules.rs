//! The converter's refusals: each rule with those before and after it, output about what is needed, files damaged at every byte, and what each refusal leaves
//! in lent memory (which every call here compares). 20 and 21 are never given.

mod common;

use common::convert::Converter;
use common::networks::{self, between, pick, Old, Plan};
use common::program::oracle;
use common::reference::sheets::{sheet, with_contents, CLOSED, DELAYED};
use common::reference::{self, bytes_16, bytes_32};
use jukesogbi::core::{self, Refused};
use jukesogbi::sample::Random;

/// How often each rule was given, with 0 for none.
#[derive(Default)]
struct Given([u64; 22]);

impl Given {
    fn count(&mut self, result: Result<usize, u32>) -> u32 {
        let rule = result.err().unwrap_or(0);
        self.0[rule as usize] += 1;
        rule
    }

    /// Just these.
    fn assert_met(&self, rules: &[usize]) {
        let met: Vec<usize> = (0..22).filter(|&rule| self.0[rule] > 0).collect();
        assert_eq!(met, rules, "{:?}", self.0);
    }
}

/// Fork with roads 1 and 3 closed: 5 places, 5 roads. Without those it has 93 bytes.
fn fork() -> Old {
    Old::of(networks::fork(), [1, 3])
}

const FORK_LEFT: usize = 29 + 5 * 8 + 3 * 8;

/// A sheet of Fork, of which two lines are left.
fn fork_sheet() -> Vec<u8> {
    sheet(&[(DELAYED, 2, 3), (CLOSED, 3, 0), (DELAYED, 1, 4_660), (CLOSED, 4, 0)])
}

const SHEET_LEFT: usize = 11 + 2 * 7;

fn converter(bytes: Vec<u8>) -> Converter {
    let shown = format!("{:?}", &bytes[..bytes.len().min(120)]);
    Converter::new(move || shown.clone(), bytes)
}

// ---- Each rule with its neighbours ----

/// The rules of the sheet's call in checking order. The network's call has those up to 7, and the last.
const ORDER: [u32; 10] = [1, 2, 3, 4, 5, 6, 7, 18, 19, 15];

/// Fork with these faults, each of which can stand beside any of the others.
fn network_with(faults: &[u32]) -> Vec<u8> {
    let mut bodies = fork().bodies();
    for fault in faults {
        match fault {
            3 => bodies[0].push(0),
            4 => bodies[0][3] = 0x7f,
            5 => bodies[1].push(0),
            6 => bodies[1][0] = 5,
            7 => bodies[2].extend(bytes_16(5)),
            _ => {}
        }
    }
    let mut bytes = reference::file(&bodies);
    if faults.contains(&1) {
        bytes[1] = 7;
    }
    if faults.contains(&2) {
        bytes.push(0);
    }
    bytes
}

/// With a fault in the last line, or in the first.
fn sheet_with(faults: &[u32], first: bool) -> Vec<u8> {
    let mut lines = vec![(DELAYED, 2, 3), (CLOSED, 3, 0), (DELAYED, 1, 4_660), (CLOSED, 4, 0)];
    for (rule, line) in [(18, (CLOSED, 1, 1)), (19, (DELAYED, 5, 0))] {
        if faults.contains(&rule) {
            let at = if first { 0 } else { lines.len() };
            lines.insert(at, line);
        }
    }
    sheet(&lines)
}

/// Every set of faults: the first in checking order is given.
#[test]
fn the_first_broken_rule() {
    let (mut by_network, mut by_sheet) = (Given::default(), Given::default());
    for set in 0..1 << ORDER.len() {
        let faults: Vec<u32> = (0..ORDER.len()).filter(|k| set >> k & 1 == 1).map(|k| ORDER[k]).collect();
        let first = |rules: &[u32]| rules.iter().find(|rule| faults.contains(rule)).copied().unwrap_or(0);
        let (case, short) = (converter(network_with(&faults)), faults.contains(&15) as usize);
        let of_network = [&ORDER[..7], &[15]].concat();
        for room in [FORK_LEFT - short, (FORK_LEFT + 50) * (1 - short)] {
            assert_eq!(by_network.count(case.network(room).result), first(&of_network), "{faults:?}");
        }
        for sheet in [sheet_with(&faults, true), sheet_with(&faults, false)] {
            for room in [SHEET_LEFT - short, (SHEET_LEFT + 50) * (1 - short)] {
                assert_eq!(by_sheet.count(case.sheet(&sheet, room).result), first(&ORDER), "{faults:?}");
            }
        }
    }
    by_network.assert_met(&[0, 1, 2, 3, 4, 5, 6, 7, 15]);
    by_sheet.assert_met(&[0, 1, 2, 3, 4, 5, 6, 7, 15, 18, 19]);
}

/// Each kind of fault that a rule names, for both calls.
#[test]
fn every_fault_of_the_network() {
    let line = networks::line();
    let places = |places: Vec<(i32, i32)>| Plan { places, ..line.clone() }.bytes();
    let roads = |roads: Vec<(u16, u16, u32)>| Plan { roads, ..line.clone() }.bytes();
    let closed = |closed: &[u16]| Old::of(line.clone(), closed.iter().copied()).bytes();
    let bodies = |k: usize, more: usize| {
        let mut bodies = Old::of(line.clone(), [1]).bodies();
        bodies[k].extend(vec![0; more]);
        reference::file(&bodies)
    };
    let good = closed(&[1]);
    for (rule, bytes) in [
        (1, vec![]), (1, vec![1]), (1, good[..28].to_vec()), (1, good[1..].to_vec()), (1, [&[2], &good[1..]].concat()), (1, oracle(&line, 6)),
        (1, fork_sheet()), (2, good[..good.len() - 1].to_vec()), (2, [&good[..], &[0]].concat()), (2, good[..29].to_vec()),
        (3, places(vec![])), (3, places(vec![(0, 0); 4_097])), (3, bodies(0, 1)), (3, bodies(0, 4)),
        (4, places(vec![(0, 0), (1_000_001, 0), (60, 0)])), (4, places(vec![(0, 0), (30, 0), (60, -1_000_001)])),
        (5, bodies(1, 1)), (5, bodies(1, 4)), (5, roads(vec![(0, 1, 1); 16_385])),
        (6, roads(vec![(0, 3, 1)])), (6, roads(vec![(3, 0, 1)])), (6, roads(vec![(1, 1, 1)])), (6, roads(vec![(0, 1, 100_001)])), (6, roads(vec![(1, 1, 0)])),
        (7, bodies(2, 1)), (7, bodies(2, 2)), (7, closed(&[2])), (7, closed(&[0, 0])), (7, closed(&[1, 0])), (7, closed(&[0, 1, 1])), (7, closed(&[256])),
        (7, closed(&[0, 65_535])),
        // As much as may be, and as little.
        (0, closed(&[0, 1])), (0, roads(vec![(0, 1, 100_000); 16_384])), (0, roads(vec![(0, 1, 0)])),
        (0, places(vec![(1_000_000, -1_000_000); 4_096])),
    ] {
        let case = converter(bytes);
        let expected = (rule > 0).then_some(rule);
        assert_eq!((case.network(200_000).result.err(), case.sheet(&sheet(&[]), 50).result.err()), (expected, expected));
        // Before everything else that is wrong.
        for beside in [vec![], sheet(&[(9, 9, 9)]), sheet(&[(CLOSED, 16_384, 0)])] {
            let of_sheet = if beside.len() > 11 && beside[11] == CLOSED { 19 } else { 18 };
            assert_eq!((case.network(0).result.err(), case.sheet(&beside, 0).result.err()), (expected.or(Some(15)), expected.or(Some(of_sheet))));
        }
    }
}

/// 18 looks at all of the sheet before 19 does, and 19 counts the roads of the old network, closed ones too.
#[test]
fn every_fault_of_the_sheet() {
    let case = converter(fork().bytes());
    let rule = |bytes: &[u8]| (case.sheet(bytes, 100).result.err(), case.sheet(bytes, 0).result.err());
    for first in [0, 3, 8, 255] {
        assert_eq!(rule(&sheet(&[(DELAYED, 0, 1), (first, 0, 0)])), (Some(18), Some(18)));
    }
    for lines in [&[(CLOSED, 0, 1)][..], &[(CLOSED, 1, 1)], &[(CLOSED, 9, 0), (CLOSED, 0, 1 << 24)], &[(CLOSED, 0, 256), (DELAYED, 9, 0)]] {
        assert_eq!(rule(&sheet(lines)), (Some(18), Some(18)));
    }
    for road in [5, 6, 255, 256, 257, 260, 16_384, 65_535] {
        for lines in [&[(CLOSED, road, 0)][..], &[(DELAYED, road, 0)], &[(CLOSED, 1, 0), (DELAYED, road, u32::MAX), (CLOSED, 0, 0)]] {
            assert_eq!(rule(&sheet(lines)), (Some(19), Some(19)));
        }
    }
    // What would break 20 when it is used is converted as it is.
    for lines in [&[(DELAYED, 0, 100_000)][..], &[(DELAYED, 1, u32::MAX)], &[(DELAYED, 4, u32::MAX), (DELAYED, 3, u32::MAX)]] {
        assert_eq!(rule(&sheet(lines)), (None, Some(15)));
    }
    for bytes in [vec![], fork().bytes(), oracle(&networks::fork(), 6), with_contents(vec![2; 6]), [sheet(&[]), vec![0]].concat()] {
        assert_eq!(rule(&bytes), (Some(18), Some(18)));
    }
}

// ---- How much output ----

/// Every room up to what is needed and beyond; the bytes past the result stay.
#[test]
fn room_about_what_is_needed() {
    let (one_place, all_closed) = (Old::of(networks::one_place(), []), Old::of(networks::fork(), 0..5));
    for (old, needed) in [(fork(), FORK_LEFT), (networks::fork_closed(), 101), (one_place, 37), (all_closed, 69)] {
        let case = converter(old.bytes());
        for room in 0..needed + 40 {
            assert_eq!(case.network(room).result, if room < needed { Err(15) } else { Ok(needed) });
        }
    }
    let case = converter(fork().bytes());
    for (lines, needed) in [(fork_sheet(), SHEET_LEFT), (sheet(&[]), 11), (sheet(&[(CLOSED, 1, 0); 9]), 11), (sheet(&[(CLOSED, 0, 0); 9]), 74)] {
        for room in 0..needed + 40 {
            assert_eq!(case.sheet(&lines, room).result, if room < needed { Err(15) } else { Ok(needed) });
        }
    }
}

#[test]
fn the_safe_calls() {
    let (old, mut out) = (fork().bytes(), [9; 120]);
    assert_eq!(core::convert(&old, &mut out), Ok(FORK_LEFT));
    assert_eq!((&out[..FORK_LEFT], &out[FORK_LEFT..]), (&fork().left_out().bytes()[..], &[9; 120 - FORK_LEFT][..]));
    let mut out = [9; 30];
    assert_eq!(core::convert_sheet(&old, &fork_sheet(), &mut out), Ok(SHEET_LEFT));
    assert_eq!(out[..], [sheet(&[(DELAYED, 1, 3), (CLOSED, 2, 0)]), vec![9; 5]].concat());
    let mut out = [9; SHEET_LEFT - 1];
    assert_eq!((core::convert(&old, &mut out), core::convert_sheet(&old, &fork_sheet(), &mut out)), (Err(Refused(15)), Err(Refused(15))));
    assert_eq!((core::convert(&old[1..], &mut out), core::convert_sheet(&old, &old, &mut out)), (Err(Refused(1)), Err(Refused(18))));
    assert_eq!((core::convert(&[], &mut []), core::convert_sheet(&old, &sheet(&[(CLOSED, 5, 0)]), &mut [])), (Err(Refused(1)), Err(Refused(19))));
    assert_eq!(out, [9; SHEET_LEFT - 1]);
}

// ---- Damaged files ----

#[test]
fn every_byte_and_value() {
    let (mut by_network, mut by_sheet) = (Given::default(), Given::default());
    for old in [fork(), networks::fork_closed(), Old::of(networks::line(), [0, 1]), Old::of(networks::one_place(), [])] {
        let file = old.bytes();
        for (at, value) in (0..file.len()).flat_map(|at| (0..=255).map(move |value| (at, value))) {
            let mut bytes = file.clone();
            bytes[at] = value;
            let case = converter(bytes);
            by_network.count(case.network(120).result);
            by_sheet.count(case.sheet(&fork_sheet(), 60).result);
        }
    }
    by_network.assert_met(&[0, 1, 2, 4, 6, 7]);
    by_sheet.assert_met(&[0, 1, 2, 4, 6, 7, 19]);
    let (case, file, mut given) = (converter(fork().bytes()), fork_sheet(), Given::default());
    for (at, value) in (0..file.len()).flat_map(|at| (0..=255).map(move |value| (at, value))) {
        let mut bytes = file.clone();
        bytes[at] = value;
        let rule = given.count(case.sheet(&bytes, 60).result);
        assert!(at >= 11 || (rule == 18) == (value != file[at]), "byte {at} set to {value}: {rule}");
        given.count(case.sheet(&bytes, SHEET_LEFT - 1).result);
    }
    given.assert_met(&[0, 15, 18, 19]);
}

#[test]
fn cut_and_extended() {
    let (file, lines) = (fork().bytes(), fork_sheet());
    let case = converter(file.clone());
    for size in 0..file.len() {
        let cut = converter(file[..size].to_vec());
        let rule = if size < 29 { 1 } else { 2 };
        assert_eq!((cut.network(200).result, cut.sheet(&lines, 100).result), (Err(rule), Err(rule)), "{size} bytes");
    }
    for size in 0..lines.len() {
        assert_eq!(case.sheet(&lines[..size], 100).result, Err(18), "{size} bytes of the sheet");
    }
    for more in 1..20 {
        for filler in [0, 1, 2, 255] {
            let longer = |file: &[u8]| [file, &vec![filler; more]].concat();
            assert_eq!((converter(longer(&file)).network(200).result, case.sheet(&longer(&lines), 100).result), (Err(2), Err(18)));
        }
    }
    // Offsets and lengths changed, together too, so that a sum of 32 bits would come round.
    for by in [1, 2, 8, 29, 1 << 8, 1 << 31, u32::MAX, u32::MAX - 10] {
        for (k, offset, length) in (0..3).flat_map(|k| [(k, by, 0), (k, 0, by), (k, by, by), (k, by, by.wrapping_neg())]) {
            let mut bytes = file.clone();
            for (at, by) in [(3 + 9 * k, offset), (7 + 9 * k, length)] {
                let number = reference::number_32(&bytes, at).wrapping_add(by);
                bytes[at..at + 4].copy_from_slice(&bytes_32(number as usize));
            }
            assert_eq!(converter(bytes).network(200).result, Err(2));
        }
    }
}

/// A few changes of the bodies at once, with the contents in step, beside sheets that are changed as well.
#[test]
fn several_changes_at_once() {
    let mut given = Given::default();
    for seed in 0..20_000 {
        let mut random = Random(seed);
        let old = pick(&mut random, &[0, 1, 2]);
        let old = [fork(), networks::fork_closed(), Old::of(networks::line(), [0])][old].clone();
        let mut bodies = old.bodies().to_vec();
        let mut lines = fork_sheet()[11..].to_vec();
        for _ in 0..random.below(4) {
            let mut fourth = std::mem::take(&mut lines);
            let body = match random.below(5) as usize {
                k @ 0..=2 => &mut bodies[k],
                _ => &mut fourth,
            };
            match random.below(6) {
                0 => body.truncate(random.below(body.len() as u64 + 1) as usize),
                1 => body.push(pick(&mut random, &[0, 1, 255])),
                2 => body.extend(bytes_16(between(&mut random, 0, 6) as usize)),
                _ if !body.is_empty() => {
                    let at = random.below(body.len() as u64) as usize;
                    body[at] = pick(&mut random, &[0, 1, 2, 3, 4, 5, 127, 255]);
                }
                _ => {}
            }
            lines = fourth;
        }
        let case = converter(reference::file(&bodies));
        for room in [150, random.below(100) as usize] {
            given.count(case.network(room).result);
            given.count(case.sheet(&with_contents(lines.clone()), room).result);
        }
    }
    given.assert_met(&[0, 3, 4, 5, 6, 7, 15, 18, 19]);
}
