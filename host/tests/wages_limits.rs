//! Wages at their limits: the smallest and the largest networks and grids, and the largest times and totals.

mod common;

use common::networks::{self, Plan};
use common::program::oracle;
use common::reference::wages::{legs, wages_bytes, wages_outcome, MOST_LEGS};
use common::reference::{Outcome, MOST_ROADS, MOST_SECONDS, NO_ROADS, NO_WALK, WORDS};
use common::tables::Tables;
use common::wages::{check_wages, random_legs, result_size};
use common::{Input, OracleCase};
use jukesogbi::core::Kind;
use jukesogbi::oracle::Oracle;
use jukesogbi::sample::{self, Random};
use jukesogbi::wages::Wages;
use jukesogbi::{core, plain};

const PLACES: usize = 4_096;

// ---- Few places ----

#[test]
fn one_place() {
    for g in [1, 6, 64] {
        let case = OracleCase::new(|| "one place".to_string(), networks::one_place().without_transit(g));
        for words in [8, 9, 20] {
            let mut opened = case.open(words).unwrap();
            for count in [0, 1, 2, 1_000] {
                let outcome = case.wages(&legs(&vec![(0, 0); count]), words, result_size(count));
                assert_eq!((outcome.result, outcome.zeroed), (Ok(4 * count + 12), 8));
                assert!(outcome.written.iter().all(|&byte| byte == 0));
                assert_eq!(opened.wages(&legs(&vec![(0, 0); count]), result_size(count) - 1), Err(15));
                assert_eq!(opened.wages(&legs(&vec![(0, 0); count]), result_size(count)), Ok(4 * count + 12));
            }
            assert_eq!(opened.wages(&legs(&[(0, 0); 1_001]), 5_000), Err(17));
            assert_eq!((opened.wages(&legs(&[(0, 1)]), 99), opened.wages(&legs(&[(1, 0)]), 99)), (Err(12), Err(12)));
            assert_eq!(opened.time(0, 0).unwrap().seconds(), Some(0));
        }
        assert_eq!((case.wages(&[], 7, 12).result, case.wages(&[1, 0, 0, 0], 7, 12).result), (Err(14), Err(12)));
    }
}

/// Every leg of the trials' networks, many times over, under the coarsest grid, where all are local, and the finest.
#[test]
fn coarse_and_fine_grids() {
    for (name, plan) in
        [("Line", networks::line()), ("Fork", networks::fork()), ("without 4", networks::fork_without_4()), ("two lines", networks::two_lines())]
    {
        let n = plan.places.len() as u32;
        let all: Vec<(u32, u32)> = (0..n).flat_map(|s| (0..n).map(move |t| (s, t))).cycle().take(MOST_LEGS).collect();
        let times = [1, 6, 17, 64].map(|g| {
            let case = OracleCase::new(move || format!("{name} under {g}"), oracle(&plan, g));
            assert_eq!(case.open(case.words()).unwrap().wages(&legs(&all), result_size(MOST_LEGS)), Ok(4_012));
            assert_eq!(case.reference.time(0, 2, case.words()).result.unwrap().far, g > 6 || name == "Line" && g == 6 || name == "two lines" && g == 6);
            case.wages(&legs(&all), case.words(), 4_012).written
        });
        // Built oracles answer alike.
        assert!(times.windows(2).all(|pair| pair[0] == pair[1]), "{name}");
    }
}

// ---- The most places ----

#[test]
fn the_most_places() {
    let network = sample::network(PLACES, 5);
    let case = OracleCase::new(|| "sample of the most places".to_string(), plain::build(&network.to_bytes(), 16));
    let (mut random, mut opened) = (Random(8), case.open(WORDS * PLACES + 5).unwrap());
    for count in [0, 1, 60] {
        let pairs = random_legs(&mut random, PLACES, count);
        assert_eq!(opened.wages(&legs(&pairs), result_size(count) + 7), Ok(result_size(count)));
    }
    // Many legs from few places, which the reference needs one search each for.
    let starts: Vec<u32> = (0..20).map(|_| random.below(PLACES as u64) as u32).collect();
    let mut pairs: Vec<(u32, u32)> = (0..MOST_LEGS).map(|i| (starts[i % 20], random.below(PLACES as u64) as u32)).collect();
    assert_eq!(opened.wages(&legs(&pairs), 4_012), Ok(4_012));
    assert_eq!(opened.wages(&legs(&pairs), 4_011), Err(15));
    assert_eq!(case.wages(&legs(&pairs), WORDS * PLACES - 1, 4_012).result, Err(14));
    pairs[999].1 = PLACES as u32;
    assert_eq!(opened.wages(&legs(&pairs), 4_012), Err(12));
    pairs[999].1 = PLACES as u32 - 1;
    pairs.push((0, 1));
    assert_eq!(opened.wages(&legs(&pairs), 9_000), Err(17));
}

/// The largest built oracle at hand, all but its nearest pairs far: each time is that of the opened question for its leg.
#[test]
fn far_legs_of_the_most_places() {
    let bytes = plain::build(&networks::chains().bytes(), 64);
    let (mut opened, mut work, mut random) = (Oracle::open(&bytes[..]).unwrap(), vec![1; WORDS * PLACES], Random(3));
    // The chains go by the remainder of 512; a third of the legs stay within theirs.
    let pairs: Vec<(u32, u32)> = (0..MOST_LEGS)
        .map(|i| {
            let (s, t) = (random.below(PLACES as u64) as u32, random.below(PLACES as u64) as u32);
            if i % 3 == 0 { (s, s % 512 + t / 512 * 512) } else { (s, t) }
        })
        .collect();
    let answers: Vec<core::Answer> = pairs.iter().map(|&(s, t)| opened.time(s, t).unwrap()).collect();
    let met = |kind: Kind, walk: bool| answers.iter().filter(|a| a.kind == kind && a.time.is_some() == walk).count();
    assert!(met(Kind::Far, true) > 100 && met(Kind::Far, false) > 100 && met(Kind::Local, true) > 10 && met(Kind::Local, false) > 5);
    let expected = wages_bytes(&answers.iter().map(|a| a.seconds().map(u64::from)).collect::<Vec<_>>());
    let mut out = vec![0; 4_012];
    assert_eq!((core::wages(&bytes, &legs(&pairs), &mut work, &mut out), &out), (Ok(4_012), &expected));
    assert!(work.iter().all(|&word| word == 0));
    out.fill(0);
    assert_eq!((opened.wages(&legs(&pairs), &mut out), &out), (Ok(4_012), &expected));
    assert_eq!(opened.time(pairs[0].0, pairs[0].1), Ok(answers[0]));
}

// ---- The largest times and totals ----

/// The longest chain with the slowest roads, from end to end: eleven such legs pass 32 bits.
#[test]
fn the_slowest_chain() {
    let places = (0..PLACES as i32).map(|k| (k, 0)).collect();
    let roads = (0..PLACES as u16 - 1).map(|u| (u, u + 1, 100_000)).collect();
    let input = Input::new(|| "the slowest chain".to_string(), &Plan { places, roads }.without_transit(1));
    let (last, words) = (PLACES as u32 - 1, WORDS * PLACES);
    for count in [1, 10, 11, 12, 100] {
        let pairs: Vec<(u32, u32)> = (0..count).map(|i| if i % 2 == 0 { (0, last) } else { (last, 0) }).collect();
        let expected = wages_outcome(&vec![Some(409_500_000); count], words, result_size(count));
        let total = u64::from_le_bytes(expected.written[4 * count + 4..].try_into().unwrap());
        assert_eq!((total, total > u32::MAX as u64), (409_500_000 * count as u64, count > 10));
        check_wages(&input, &legs(&pairs), words, result_size(count), &expected);
    }
    let steps: Vec<(u32, u32)> = (0..200).map(|i| (20 * i, last - i)).collect();
    let times: Vec<Option<u64>> = steps.iter().map(|&(s, t)| Some(100_000 * s.abs_diff(t) as u64)).collect();
    check_wages(&input, &legs(&steps), words + 9, 900, &wages_outcome(&times, words, 900));
    check_wages(&input, &legs(&steps), words, 811, &Outcome { result: Err(15), zeroed: words, written: vec![] });
}

/// Line's oracle with other lists and another table: from 0 to 2 is far, and takes what these three say. Each has the most roads, of which wages tell nothing.
fn line_taking(first: u32, between: u32, last: u32) -> OracleCase {
    let plan = networks::line();
    let mut tables = Tables::of(&oracle(&plan, 6), 3);
    let value = |seconds: u32| (seconds, if seconds == NO_WALK { NO_ROADS } else { MOST_ROADS });
    tables.lists = vec![vec![(0, value(first))], vec![(0, (0, 0))], vec![(0, value(last))]];
    tables.table = vec![vec![value(between)]];
    OracleCase::new(move || format!("Line with {first}, {between} and {last}"), tables.oracle(&plan, 6))
}

/// The greatest time that there is, a thousand times.
#[test]
fn the_greatest_total() {
    let case = line_taking(MOST_SECONDS, MOST_SECONDS, MOST_SECONDS);
    let outcome = case.wages(&legs(&[(0, 2); MOST_LEGS]), 24, 4_012);
    let wages = Wages::of(&outcome.written);
    assert_eq!((wages.none, wages.total), (0, 1_228_500_000_000));
    assert!(wages.times.iter().all(|&time| time == Some(1_228_500_000)));
    assert_eq!(case.open(24).unwrap().wages(&legs(&[(2, 0); MOST_LEGS]), 4_012), Ok(4_012));
}

/// Totals about the ends of 32 bits.
#[test]
fn totals_about_32_bits() {
    // Four times 2^30; then with a second less each.
    let whole = [(3, 0, 3 << 30), (4, 0, 1 << 32), (4, 1, (1 << 32) + 7)];
    let less = [(4, 0, (1 << 32) - 4), (4, 1, (1 << 32) + 3), (8, 1, (1 << 33) - 1)];
    for (between, totals) in [(254_741_824, whole), (254_741_823, less)] {
        let case = line_taking(MOST_SECONDS, between, MOST_SECONDS);
        for (far, local, total) in totals {
            let pairs = [vec![(0, 2); far], vec![(0, 1); local]].concat();
            let outcome = case.wages(&legs(&pairs), 24, 100);
            assert_eq!(Wages::of(&outcome.written).total, total, "{far} far and {local} local");
            assert!(case.open(24).unwrap().wages(&legs(&pairs), 100).is_ok());
        }
    }
}

/// 'No walk' in any of the three parts; it is counted and never added.
#[test]
fn no_walk_is_no_time() {
    for (first, between, last) in [(NO_WALK, 1, 1), (1, NO_WALK, 1), (1, 1, NO_WALK), (NO_WALK, NO_WALK, NO_WALK)] {
        let case = line_taking(first, between, last);
        for (none, others) in [(1, 0), (1, 1), (2, 3), (1_000, 0), (999, 1)] {
            let pairs = [vec![(0, 2); none], vec![(1, 2); others]].concat();
            let wages = Wages::of(&case.wages(&legs(&pairs), 24, 4_012).written);
            assert_eq!((wages.none, wages.total), (none as u32, 9 * others as u64));
        }
    }
}
