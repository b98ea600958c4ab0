//! Rule 21 in every call but the converter's: a file with closed roads is refused, directly after 7 and before 8, whatever else is wrong with the file and the
//! call, and nothing is written (which every call here compares).

mod common;

use common::networks::{self, Old, Plan};
use common::reference::sheets::sheet;
use common::reference::{self, bytes_16};
use common::refusals::{build, every_question, refused};
use common::{NetworkCase, OracleCase};
use jukesogbi::core::{self, Refused};
use jukesogbi::oracle::Oracle;
use jukesogbi::sample::Random;

/// The bodies of Fork's oracle with this list of closed roads.
fn fork(closed: &[u8]) -> Vec<Vec<u8>> {
    let oracle = common::program::oracle(&networks::fork(), 6);
    let mut bodies: Vec<Vec<u8>> = (1..=7).map(|kind| reference::body(&oracle, kind).to_vec()).collect();
    bodies[2] = closed.to_vec();
    bodies
}

fn numbers(list: &[usize]) -> Vec<u8> {
    list.iter().flat_map(|&number| bytes_16(number)).collect()
}

// ---- In its place ----

/// Well-formed entries give 21, all that is malformed gives 7, also where the first entries are well-formed.
#[test]
fn by_what_body_3_holds() {
    for (list, rule) in [
        (numbers(&[0]), 21), (numbers(&[4]), 21), (numbers(&[0, 4]), 21), (numbers(&[1, 2, 3]), 21), (numbers(&[0, 1, 2, 3, 4]), 21),
        (numbers(&[5]), 7), (numbers(&[0, 5]), 7), (numbers(&[0, 0]), 7), (numbers(&[4, 3]), 7), (numbers(&[0, 1, 2, 3, 4, 4]), 7), (numbers(&[256]), 7),
        (numbers(&[65_535]), 7), (vec![0], 7), (vec![0, 0, 1], 7), (vec![255; 3], 7),
    ] {
        let bodies = fork(&list);
        every_question(&format!("oracle of Fork, body 3 {list:?}"), reference::file(&bodies), rule);
        for g in [6, 0, 65] {
            build(&format!("Fork, body 3 {list:?}"), reference::file(&bodies[..3]), g, rule);
        }
    }
}

/// With faults before and after it: the first in checking order is given. The faults of bodies 4 to 7 are each a rule's.
#[test]
fn between_its_neighbours() {
    for set in 0..1u32 << 5 {
        let has = |k: u32| set >> k & 1 == 1;
        let mut bodies = fork(&numbers(&[1, 4]));
        let faults: [(u32, &dyn Fn(&mut Vec<Vec<u8>>)); 5] = [
            (6, &|b| b[1][0] = 5), (7, &|b| b[2].extend([5, 0])), (8, &|b| b[3][0] = 65), (9, &|b| b[4][0] = 5), (10, &|b| b[5][0] = 0),
        ];
        for (_, change) in faults.iter().enumerate().filter(|(k, _)| has(*k as u32)).map(|(_, fault)| fault) {
            change(&mut bodies);
        }
        let rule = if has(0) { 6 } else if has(1) { 7 } else { 21 };
        every_question(&format!("faults {set:05b}"), reference::file(&bodies), rule);
        build(&format!("faults {set:05b}"), reference::file(&bodies[..3]), if has(2) { 65 } else { 6 }, rule);
        // Emptied, body 3 leaves the others.
        bodies[2].clear();
        let first = faults.iter().enumerate().find(|(k, (rule, _))| has(*k as u32) && *rule != 7).map(|(_, (rule, _))| *rule);
        let case = OracleCase::new(move || format!("faults {set:05b}, an empty body 3"), reference::file(&bodies));
        assert_eq!(case.list(0).result.err(), first);
    }
}

/// The bytes of an old network and of its oracle, whatever its roads, are refused; with the closed roads left out both are accepted.
#[test]
fn old_networks_and_their_oracles() {
    let mut met = 0;
    for seed in 0..300 {
        let mut random = Random(9_000_000 + seed);
        let (old, g) = (networks::old_network(&mut random), networks::grid(&mut random));
        let n = old.plan.places.len();
        let case = NetworkCase::new(move || format!("seed {seed}"), old.bytes());
        let asked = OracleCase::new(move || format!("old oracle of seed {seed}"), old.oracle(g));
        let expected = (!old.closed.is_empty()).then_some(21);
        assert_eq!(case.build(g, 8 * n, 100_000).result.err(), expected);
        assert_eq!(asked.audit(8 * n).result.err(), expected);
        assert_eq!(asked.time(0, 0, 8 * n).result.err(), expected);
        let left = NetworkCase::new(move || format!("seed {seed}, left out"), old.left_out().bytes());
        assert!(left.build(g, 8 * n, 100_000).result.is_ok());
        met += expected.is_some() as u32;
    }
    assert!(met > 100, "{met} old networks");
}

// ---- The longest list, and the safe calls ----

#[test]
fn all_of_the_most_roads_closed() {
    let plan = Plan { places: networks::chains().places, roads: vec![(0, 4_095, 7); 16_384] };
    for closed in [vec![0], vec![16_383], (0..16_384).collect()] {
        let old = Old::of(plan.clone(), closed);
        let case = NetworkCase::new(|| "the most roads".to_string(), old.bytes());
        refused(&case.build(6, 8 * 4_096, 1_000_000), 21, "the most roads");
        let [places, roads, list] = old.bodies();
        let mut bodies: Vec<Vec<u8>> = (1..=7).map(|kind| reference::body(&plan.without_transit(6), kind).to_vec()).collect();
        (bodies[0], bodies[1], bodies[2]) = (places, roads, list);
        let asked = OracleCase::new(|| "oracle of the most roads".to_string(), reference::file(&bodies));
        refused(&asked.time(0, 4_095, 8 * 4_096), 21, "the most roads");
    }
}

#[test]
fn the_safe_calls() {
    let (network, oracle, mut work, mut out) = (networks::fork_closed().bytes(), networks::fork_closed().oracle(6), [7; 40], [9; 500]);
    let rule = Err(Refused(21));
    assert_eq!(core::build(&network, 6, &mut work, &mut out).map(|_| ()), rule);
    assert_eq!(core::audit(&oracle, &mut work), rule);
    assert_eq!(core::time(&oracle, 0, 4, &mut work).map(|_| ()), rule);
    assert_eq!(core::far(&oracle, 0, 4).map(|_| ()), rule);
    assert_eq!((core::list(&oracle, 0).map(|_| ()), core::list_rule(&oracle, 0)), (rule, 21));
    assert_eq!(core::way(&oracle, 0, 4, &mut work, &mut out).map(|_| ()), rule);
    assert_eq!(core::block(&oracle, &[0], &[4], &mut work).map(|_| ()), rule);
    assert_eq!(core::time_under(&oracle, &sheet(&[]), 0, 4, &mut work).map(|_| ()), rule);
    assert_eq!(core::way_under(&oracle, &sheet(&[]), 0, 4, &mut work, &mut out).map(|_| ()), rule);
    assert_eq!(core::wages(&oracle, &[], &mut work, &mut out).map(|_| ()), rule);
    assert_eq!(Oracle::open(&oracle[..]).map(|_| ()), rule);
    assert_eq!((work, out), ([7; 40], [9; 500]));
}
