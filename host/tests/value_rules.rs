//! The two numbers of a value, and roads of 0 seconds, by hand: rules 10, 11 and 6 in every call, with the rules before and after broken as well.

mod common;

use common::networks::{self, Old, Plan};
use common::program::oracle;
use common::reference::{self, value_bytes, Value};
use common::refusals::{build, every_question};
use common::{NetworkCase, OracleCase};

/// 'No walk', and what seconds and roads there can be.
const IN_RANGE: [Value; 6] = [(4_294_967_295, 65_535), (0, 0), (0, 4_095), (409_500_000, 0), (409_500_000, 4_095), (1, 4_094)];

/// 'No walk' with other roads, times with the roads of 'no walk', and one over the most of either number.
const OUT_OF_RANGE: [Value; 13] = [
    (4_294_967_295, 0), (4_294_967_295, 1), (4_294_967_295, 4_095), (4_294_967_295, 4_096), (4_294_967_295, 65_534), (0, 65_535), (409_500_000, 65_535),
    (4_294_967_294, 65_535), (0, 4_096), (409_500_000, 4_096), (409_500_001, 0), (409_500_001, 4_095), (409_500_001, 65_535),
];

fn fork() -> Vec<Vec<u8>> {
    let oracle = oracle(&networks::fork(), 6);
    (1..=7).map(|kind| reference::body(&oracle, kind).to_vec()).collect()
}

/// Where values stand in bodies 6 and 7 of Fork's oracle, and the rule for each: the lists of 0 and 4 have two entries each, the others none.
fn values() -> Vec<(usize, usize, u32)> {
    let lists = [20, 20 + 18 + 3 * 2].into_iter().flat_map(|list| [list + 4, list + 12]);
    lists.map(|at| (5, at, 10)).chain((0..4).map(|k| (6, 6 * k, 11))).collect()
}

fn set(bodies: &mut [Vec<u8>], (body, at): (usize, usize), value: Value) {
    bodies[body][at..at + 6].copy_from_slice(&value_bytes(value));
}

#[test]
fn values_at_their_limits() {
    for (body, at, rule) in values() {
        for value in IN_RANGE {
            let mut bodies = fork();
            set(&mut bodies, (body, at), value);
            let case = OracleCase::new(move || format!("Fork, {value:?} at {at} of body {}", body + 1), reference::file(&bodies));
            assert!(case.open(40).is_ok() && case.list(0).result.is_ok() && case.far(0, 4).result.is_ok() && case.time(4, 0, 40).result.is_ok());
            assert_eq!(case.audit(40).result.err(), (bodies != fork()).then_some(16));
        }
        for value in OUT_OF_RANGE {
            let mut bodies = fork();
            set(&mut bodies, (body, at), value);
            every_question(&format!("Fork, {value:?} at {at} of body {}", body + 1), reference::file(&bodies), rule);
        }
    }
}

/// A table of the size of before, and others.
#[test]
fn sizes_of_the_table() {
    for size in (0..40).filter(|&size| size != 24) {
        let mut bodies = fork();
        bodies[6].resize(size, 0);
        every_question(&format!("Fork, a table of {size} bytes"), reference::file(&bodies), 11);
    }
}

/// With faults before and after: the first in checking order is given.
#[test]
fn values_between_their_neighbours() {
    for set_of in 0..1u32 << 5 {
        let has = |k: u32| set_of >> k & 1 == 1;
        for (entry, square) in [((4_294_967_295, 0), (0, 65_535)), ((0, 4_096), (4_294_967_295, 4_095))] {
            let mut bodies = fork();
            let faults: [(u32, &dyn Fn(&mut Vec<Vec<u8>>)); 5] = [
                (6, &|b| b[1][7] = 1), (8, &|b| b[3][0] = 65), (9, &|b| b[4][0] = 5), (10, &|b| set(b, (5, 56), entry)), (11, &|b| set(b, (6, 18), square)),
            ];
            let given: Vec<_> = faults.iter().enumerate().filter(|(k, _)| has(*k as u32)).map(|(_, fault)| fault).collect();
            given.iter().for_each(|(_, change)| change(&mut bodies));
            if let Some((rule, _)) = given.first() {
                every_question(&format!("faults {set_of:05b}"), reference::file(&bodies), *rule);
            }
        }
    }
}

// ---- Roads of no time ----

/// Each road of Fork with so many seconds, in the network and in the oracle.
#[test]
fn seconds_from_0() {
    for road in 0..5 {
        for (seconds, rule) in [(0, None), (1, None), (100_000, None), (100_001, Some(6)), (131_072, Some(6)), (1 << 24, Some(6)), (u32::MAX, Some(6))] {
            let mut plan = networks::fork();
            plan.roads[road].2 = seconds;
            let mut bodies = fork();
            bodies[1] = plan.bodies()[1].clone();
            match rule {
                Some(rule) => {
                    every_question(&format!("Fork, {seconds} seconds"), reference::file(&bodies), rule);
                    build(&format!("Fork, {seconds} seconds"), plan.bytes(), 65, rule);
                }
                None => {
                    let case = NetworkCase::new(move || format!("Fork, {seconds} seconds"), plan.bytes());
                    assert!(case.build(6, 40, 1_000).result.is_ok());
                    let case = OracleCase::new(move || format!("oracle of Fork, {seconds} seconds"), reference::file(&bodies));
                    assert!(case.open(40).is_ok());
                }
            }
        }
    }
}

/// With seconds of 0 the rules about it are what they were: 5 before, 7, 21 and 8 after.
#[test]
fn no_time_beside_other_faults() {
    let zero = Plan { roads: networks::fork().roads.into_iter().map(|(a, b, _)| (a, b, 0)).collect(), ..networks::fork() };
    let mut odd = zero.bodies();
    odd[1].push(0);
    build("a byte too many", reference::file(&odd), 6, 5);
    for (a, b) in [(0, 0), (0, 5), (5, 0), (65_535, 1)] {
        let mut plan = zero.clone();
        (plan.roads[4].0, plan.roads[4].1) = (a, b);
        build("wrong ends of a road of no time", plan.bytes(), 6, 6);
    }
    build("a closed list that falls", Old::of(zero.clone(), [1, 0]).bytes(), 6, 7);
    build("a closed road of no time", Old::of(zero.clone(), [4]).bytes(), 6, 21);
    build("no grid", zero.bytes(), 0, 8);
    let case = NetworkCase::new(|| "Fork of no time".to_string(), zero.bytes());
    assert_eq!((case.build(6, 39, 1_000).result, case.build(6, 40, 0).result), (Err(14), Err(15)));
}
