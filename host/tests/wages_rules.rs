//! Rules 12, 17, 14 and 15 over legs in their places: each with those before and after it, how many legs there may be and how much output they take, and
//! what each refusal leaves in lent memory (which every call here compares).

mod common;

use common::program::oracle;
use common::reference::wages::{legs, wages_bytes, whole_legs, MOST_LEGS};
use common::wages::result_size;
use common::{damaged, networks, OracleCase};
use jukesogbi::core::{self, Refused};
use jukesogbi::oracle::Oracle;

/// Fork's oracle has 5 places.
const N: u32 = 5;
const WORDS: usize = 40;

fn fork() -> OracleCase {
    OracleCase::new(|| "Fork".to_string(), oracle(&networks::fork(), 6))
}

/// So many legs of Fork, far and local, with places named twice.
fn some(count: usize) -> Vec<(u32, u32)> {
    let pairs = [(0, 4), (3, 0), (2, 2), (4, 0), (1, 3), (0, 4)];
    (0..count).map(|i| pairs[i % pairs.len()]).collect()
}

// ---- What is written ----

#[test]
fn by_example() {
    let case = fork();
    let written = |pairs: &[(u32, u32)]| case.wages(&legs(pairs), WORDS, 100).written;
    assert_eq!(written(&[]), [0; 12]);
    assert_eq!(written(&[(1, 1)]), [[0; 4], [0; 4], [0; 4], [0; 4]].concat());
    assert_eq!(written(&[(0, 4), (0, 3), (0, 4)]), [[11, 0, 0, 0], [10, 0, 0, 0], [11, 0, 0, 0], [0; 4], [32, 0, 0, 0], [0; 4]].concat());
    // Without road 4 there is no walk to place 4: from 0 it is far, from 3 local.
    let without = OracleCase::new(|| "Fork without road 4".to_string(), oracle(&networks::fork_without_4(), 6));
    let outcome = without.wages(&legs(&[(3, 4), (0, 3), (4, 0), (4, 4), (0, 4)]), WORDS, 32);
    let times = [[255; 4], [10, 0, 0, 0], [255; 4], [0; 4], [255; 4]].concat();
    assert_eq!((outcome.result, outcome.zeroed, outcome.written), (Ok(32), WORDS, [times, [3, 0, 0, 0, 10, 0, 0, 0, 0, 0, 0, 0].to_vec()].concat()));
    // Each leg has none.
    assert_eq!(without.wages(&legs(&[(4, 1); 3]), WORDS, 24).written, [vec![255; 12], vec![3, 0, 0, 0], vec![0; 8]].concat());
}

/// Times, none and total are the same for legs in another order, but for their order.
#[test]
fn the_order_entered() {
    let case = OracleCase::new(|| "two lines".to_string(), oracle(&networks::two_lines(), 6));
    let pairs: Vec<(u32, u32)> = (0..6).flat_map(|s| (0..6).map(move |t| (s, t))).collect();
    let written = |pairs: &[(u32, u32)]| case.wages(&legs(pairs), case.words(), 200).written;
    let whole = written(&pairs);
    for turn in 1..36 {
        let turned = [&pairs[turn..], &pairs[..turn]].concat();
        assert_eq!(written(&turned), [&whole[4 * turn..144], &whole[..4 * turn], &whole[144..]].concat());
    }
    // A leg by itself has the time that it has among others.
    for (i, &pair) in pairs.iter().enumerate() {
        assert_eq!(written(&[pair])[..4], whole[4 * i..4 * i + 4]);
    }
}

// ---- Each rule with its neighbours ----

/// Those that a call can break over an oracle that is accepted, in checking order.
const ORDER: [u32; 4] = [12, 17, 14, 15];

/// Legs that break none of these, or 17: too many, a part of a leg (which would name no place), or both.
fn entered(breaks_17: bool) -> Vec<Vec<u8>> {
    if !breaks_17 {
        return [1, 3, MOST_LEGS].map(|count| legs(&some(count))).to_vec();
    }
    let part = |count: usize, size: usize| [legs(&some(count)), vec![255; size]].concat();
    let parts = [1, 2, 3].into_iter().flat_map(|size| [1, 3, MOST_LEGS - 1, MOST_LEGS, MOST_LEGS + 1].map(|count| part(count, size)));
    parts.chain([MOST_LEGS + 1, 3 * MOST_LEGS].map(|count| part(count, 0))).collect()
}

/// The same with a whole leg that names no place: the first, the last, or one between, at its start or its end.
fn misnamed(legs: &[u8]) -> Vec<Vec<u8>> {
    let count = whole_legs(legs).len();
    let places = [0, 2 * (count / 2) + 1, 2 * count - 1];
    let changed = |place: usize, number: u16| {
        let mut legs = legs.to_vec();
        legs[2 * place..2 * place + 2].copy_from_slice(&number.to_le_bytes());
        legs
    };
    places.into_iter().flat_map(|place| [N as u16, 256, 4_096, u16::MAX].map(|number| changed(place, number))).collect()
}

/// Every set of faults: the first in checking order is given, and an opened oracle answers afterwards as before.
#[test]
fn the_first_broken_rule() {
    let case = fork();
    let mut opened = case.open(WORDS).unwrap();
    for set in 0..1 << ORDER.len() {
        let faults: Vec<u32> = (0..ORDER.len()).filter(|k| set >> k & 1 == 1).map(|k| ORDER[k]).collect();
        let first = |rules: &[u32]| rules.iter().find(|rule| faults.contains(rule)).copied();
        let right = entered(faults.contains(&17));
        let all = if faults.contains(&12) { right.iter().flat_map(|legs| misnamed(legs)).collect() } else { right };
        for legs in all {
            let needed = result_size(legs.len() / 4);
            let lent = if faults.contains(&14) { [0, 1, WORDS - 1] } else { [WORDS, WORDS + 1, 99] };
            let room = if faults.contains(&15) { [0, 12, needed - 1] } else { [needed, needed + 1, needed + 50] };
            for (words, room) in lent.into_iter().zip(room) {
                let outcome = case.wages(&legs, words, room);
                assert_eq!(outcome.result.err(), first(&ORDER), "faults {faults:?}");
                assert_eq!(outcome.zeroed, if matches!(outcome.result, Ok(_) | Err(15)) { WORDS } else { 0 });
                assert_eq!(opened.wages(&legs, room).err(), first(&[12, 17, 15]), "faults {faults:?}");
                assert_eq!(opened.time(0, 4).map(|a| a.seconds()), Ok(Some(11)));
            }
        }
        assert!(opened.time(3, 0).is_ok() && opened.far(0, 4).is_ok() && opened.way(0, 4, 8).is_ok() && opened.block(&[0, 3], &[4]).is_ok());
    }
}

/// The oracle's own rules come before all of these.
#[test]
fn rules_of_the_oracle_come_first() {
    for (rule, bytes) in damaged::forks() {
        let case = OracleCase::new(move || format!("an oracle that breaks {rule}"), bytes);
        for legs in [vec![], legs(&some(3)), legs(&[(N, 0)]), vec![255; 5], legs(&some(MOST_LEGS + 1)), legs(&[(0, 65_535); MOST_LEGS + 1])] {
            for (words, room) in [(WORDS, 5_000), (WORDS, 0), (0, 5_000), (0, 0)] {
                assert_eq!(case.wages(&legs, words, room).result, Err(rule));
            }
        }
    }
}

// ---- How many legs ----

#[test]
fn numbers_of_legs() {
    let case = fork();
    let mut opened = case.open(WORDS + 3).unwrap();
    let mut ask = |legs: &[u8]| opened.wages(legs, result_size(legs.len() / 4));
    for count in [0, 1, 2, 999, 1_000] {
        assert_eq!(ask(&legs(&some(count))), Ok(4 * count + 12), "{count} legs");
    }
    // A number of legs or of bytes that comes round in 16 bits is no smaller number.
    for count in [1_001, 1_002, 16_384, 16_385, 65_536, 65_537, 66_536, 100_000] {
        let mut pairs = some(count);
        assert_eq!(ask(&legs(&pairs)), Err(17), "{count} legs");
        pairs[count - 1].1 = N;
        assert_eq!(ask(&legs(&pairs)), Err(12), "{count} legs, the last of which names no place");
        pairs[count - 1].1 = 0;
        pairs[MOST_LEGS].0 = N;
        assert_eq!(ask(&legs(&pairs)), Err(12), "{count} legs, the 1,001st of which names no place");
    }
}

/// A part of a leg is 17 whatever it holds, also where it begins with a number that names no place.
#[test]
fn a_part_of_a_leg() {
    let case = fork();
    let mut opened = case.open(WORDS).unwrap();
    for count in [0, 1, 999, 1_000, 1_001] {
        for part in 1..4 {
            for byte in [0, 1, N as u8, 255] {
                let mut entered = [legs(&some(count)), vec![byte; part]].concat();
                assert_eq!(opened.wages(&entered, 9_000), Err(17), "{count} legs and {part} times {byte}");
                if count > 0 {
                    entered[4 * count - 1] = 1;
                    assert_eq!(opened.wages(&entered, 9_000), Err(12), "{count} legs, the last wrong, and {part} times {byte}");
                }
            }
        }
    }
    for size in 0..40 {
        assert_eq!(opened.wages(&vec![0; size], 100).err(), (size % 4 != 0).then_some(17), "{size} bytes");
    }
}

// ---- How much output ----

/// Every room about what is needed; the bytes past the result stay.
#[test]
fn room_about_what_is_needed() {
    let case = fork();
    let mut opened = case.open(WORDS).unwrap();
    for count in [0, 1, 2, 5, 999, 1_000] {
        let (legs, needed) = (legs(&some(count)), result_size(count));
        let little = (0..needed.min(20)).chain([4 * count, 4 * count + 4, needed - 4, needed - 1]);
        for room in little.chain([needed, needed + 1, needed + 4, needed + 300]) {
            let expected = if room < needed { Err(15) } else { Ok(needed) };
            assert_eq!(opened.wages(&legs, room), expected, "{count} legs in {room} bytes");
        }
    }
}

// ---- The safe calls ----

#[test]
fn the_safe_calls() {
    let bytes = oracle(&networks::fork(), 6);
    let (mut work, mut opened) = (vec![7; WORDS + 2], Oracle::open(&bytes[..]).unwrap());
    let mut ask = |legs: &[u8], room: usize| {
        let (mut out, mut beside) = (vec![9; room], vec![9; room]);
        let (by_call, by_opened) = (core::wages(&bytes, legs, &mut work, &mut out), opened.wages(legs, &mut beside));
        assert_eq!((&by_call, &out), (&by_opened, &beside));
        (by_call, out)
    };
    let three = legs(&[(0, 4), (1, 1), (3, 0)]);
    let (got, out) = ask(&three, 30);
    assert_eq!((got, out), (Ok(24), [wages_bytes(&[Some(11), Some(0), Some(10)]), vec![9; 6]].concat()));
    assert_eq!(ask(&three, 23), (Err(Refused(15)), vec![9; 23]));
    assert_eq!(ask(&three[..11], 30), (Err(Refused(17)), vec![9; 30]));
    assert_eq!(ask(&legs(&[(5, 0)]), 30), (Err(Refused(12)), vec![9; 30]));
    assert_eq!(ask(&[], 12), (Ok(12), vec![0; 12]));
    assert_eq!((&work[..WORDS], &work[WORDS..]), (&[0; WORDS][..], &[7, 7][..]));
    assert_eq!(core::wages(&bytes, &three, &mut work[..WORDS - 1], &mut [0; 24]), Err(Refused(14)));
    assert_eq!(core::wages(&bytes[1..], &three, &mut work, &mut [0; 24]), Err(Refused(1)));
}
