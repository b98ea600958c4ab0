//! Old networks converted: what comes out, byte for byte, and that every time, far answer and way over it is what it was by the definitions, with closed
//! roads as document 01 has them. (Sheets are in convert_sheets.rs, refusals in convert_rules.rs.)

mod common;

use common::convert::Converter;
use common::networks::{self, Old, Plan};
use common::reference::{self, Network, Questions};
use common::{networks_to_try, NetworkCase, OracleCase};
use jukesogbi::sample::{self, Random};
use jukesogbi::{core, files};

const PLACES: usize = 4_096;
const ROADS: usize = 16_384;

/// Which roads are closed, of so many.
type Closed = (&'static str, fn(u16) -> Vec<u16>);

const CLOSED: [Closed; 9] = [
    ("none", |_| vec![]),
    ("all", |roads| (0..roads).collect()),
    ("the first", |roads| (0..roads.min(1)).collect()),
    ("the last", |roads| (roads.saturating_sub(1)..roads).collect()),
    ("alternate, from the first", |roads| (0..roads).step_by(2).collect()),
    ("alternate, from the second", |roads| (1..roads).step_by(2).collect()),
    ("all but the first", |roads| (1..roads).collect()),
    ("all but the last", |roads| (0..roads.saturating_sub(1)).collect()),
    ("the middle half", |roads| (roads / 4..roads - roads / 4).collect()),
];

fn sampled(n: usize) -> Plan {
    let net = sample::network(n, n as u64);
    Plan { places: net.nodes, roads: net.edges.iter().map(|e| (e.first, e.second, e.seconds)).collect() }
}

// ---- What comes out ----

/// Line without its first road, by hand from the document's layout.
#[test]
fn line_byte_by_byte() {
    #[rustfmt::skip]
    let expected = [
        1, 3,
        1, 29, 0, 0, 0, 24, 0, 0, 0,
        2, 53, 0, 0, 0, 8, 0, 0, 0,
        3, 61, 0, 0, 0, 0, 0, 0, 0,
        0, 0, 0, 0, 0, 0, 0, 0, 30, 0, 0, 0, 0, 0, 0, 0, 60, 0, 0, 0, 0, 0, 0, 0,
        1, 0, 2, 0, 9, 0, 0, 0,
    ];
    let old = Converter::new(|| "Line with road 0 closed".to_string(), Old::of(networks::line(), [0]).bytes());
    assert_eq!(old.converted(), expected);
    let mut out = [7; 80];
    assert_eq!(core::convert(&old.bytes, &mut out), Ok(61));
    assert_eq!((&out[..61], &out[61..]), (&expected[..], &[7; 19][..]));
    // Document 01's closed trial.
    assert_eq!(Converter::new(|| "Fork".to_string(), networks::fork_closed().bytes()).converted(), networks::fork_without_4().bytes());
}

/// Converts it, with its own length for room and with just what is needed; what comes out has the roads that are left, and is not changed any more.
fn convert(name: String, old: &Old) -> Vec<u8> {
    let text = name.clone();
    let case = Converter::new(move || text.clone(), old.bytes());
    let new = case.converted();
    assert_eq!(new, old.left_out().bytes(), "{name}");
    assert_eq!(case.network(new.len()).result, Ok(new.len()), "{name}");
    assert_eq!(case.network(new.len() - 1).result, Err(15), "{name}");
    assert!(old.closed.is_empty() == (new == case.bytes), "{name}");
    assert_eq!(Converter::new(move || format!("{name}, converted"), new.clone()).converted(), new);
    new
}

#[test]
fn each_position_of_closed_roads() {
    for (name, plan) in [
        ("Line", networks::line()),
        ("Fork", networks::fork()),
        ("one place", networks::one_place()),
        ("four places without roads", networks::four_in_a_row()),
        ("two lines", networks::two_lines()),
        ("a sample", sampled(60)),
        ("a larger sample", sampled(1_000)),
        ("chains", networks::chains()),
    ] {
        for (position, closed) in CLOSED {
            convert(format!("{name}, closed: {position}"), &Old::of(plan.clone(), closed(plan.roads.len() as u16)));
        }
    }
}

/// The rest of the bytes stay: each road is where its old number less the closed ones before it says, with its ends and seconds.
#[test]
fn old_numbers_less_the_closed_ones_before() {
    for seed in 0..networks_to_try(2_000) {
        let old = networks::old_network(&mut Random(seed));
        let new = convert(format!("seed {seed}"), &old);
        assert_eq!(reference::body(&new, 1), old.bodies()[0]);
        for (i, road) in old.plan.roads.iter().enumerate().filter(|(i, _)| !old.closed.contains(&(*i as u16))) {
            let number = i - old.closed.iter().filter(|&&closed| (closed as usize) < i).count();
            let at = &reference::body(&new, 2)[8 * number..];
            let there = (reference::number_16(at, 0) as u16, reference::number_16(at, 2) as u16, reference::number_32(at, 4));
            assert_eq!(there, *road, "seed {seed}, road {i}");
        }
    }
}

// ---- Times and ways as before ----

/// Builds of the converted network under g, and compares every answer with those of the old oracle by the definitions, pairs tried included. Answers how
/// many pairs have no walk.
fn as_before(name: &str, old: &Old, g: u32) -> usize {
    let (before, text) = (Questions::old(old.oracle(g)), name.to_string());
    let new = NetworkCase::new(move || text.clone(), convert(name.to_string(), old));
    let oracle = new.reference.oracle(g).bytes.clone();
    assert!(new.build(g, new.words(), oracle.len()).result.is_ok());
    let text = format!("{name} under {g}");
    let case = OracleCase::new(move || text.clone(), oracle);
    let (n, words, mut none) = (case.reference.size() as u32, case.words(), 0);
    for (s, t) in (0..n).flat_map(|s| (0..n).map(move |t| (s, t))) {
        let (time, at) = (case.time(s, t, words).result, format!("{name} under {g}, {s} to {t}"));
        assert_eq!(time, before.time(s, t, words).result, "{at}");
        assert_eq!(case.far(s, t).result, before.far(s, t).result, "{at}");
        let room = 2 * n as usize;
        assert_eq!(case.way(s, t, words, room), before.way(s, t, words, room), "{at}");
        none += time.unwrap().time.is_none() as usize;
    }
    none
}

/// Every set of closed roads.
#[test]
fn every_set_of_closed_roads() {
    for (name, plan) in [("Line", networks::line()), ("Fork", networks::fork()), ("two lines", networks::two_lines())] {
        for set in 0..1u16 << plan.roads.len() {
            let old = Old::of(plan.clone(), (0..plan.roads.len() as u16).filter(|i| set >> i & 1 == 1));
            for g in [1, 5, 6, 17, 64] {
                as_before(&format!("{name}, closed {:?}", old.closed), &old, g);
            }
        }
    }
}

/// Random networks, most of them with many closed roads, each under several grids.
fn random_networks(share: u64) {
    let (mut with, mut none, mut pairs) = (0, 0, 0);
    for seed in (0..networks_to_try(400)).filter(|seed| seed % 2 == share) {
        let mut random = Random(7_000_000 + seed);
        let mut old = networks::old_network(&mut random);
        if old.closed.is_empty() {
            old.closed = (0..old.plan.roads.len() as u16).filter(|_| random.once_in(3)).collect();
        }
        with += !old.closed.is_empty() as usize;
        for g in [networks::grid(&mut random), networks::grid(&mut random), 1, 64] {
            none += as_before(&format!("seed {seed}"), &old, g);
            pairs += old.plan.places.len().pow(2);
        }
    }
    println!("{with} networks with closed roads, {pairs} pairs, {none} without a walk");
    assert!(with > 150 && none > 5_000 && pairs > 4 * none / 3, "{with} {none} {pairs}");
}

#[test]
fn random_networks_as_before() {
    random_networks(0);
}

#[test]
fn more_random_networks_as_before() {
    random_networks(1);
}

// ---- The largest network ----

/// The most places and roads. Some times and ways over what comes out, under 1, where all are searched, are those of the old network.
#[test]
fn the_most_places_and_roads() {
    let mut plan = networks::dense();
    plan.roads.resize(ROADS, (7, 9, 100_000));
    for (position, closed) in CLOSED {
        let old = Old::of(plan.clone(), closed(ROADS as u16));
        assert_eq!(old.bytes().len(), 29 + 8 * PLACES + 8 * ROADS + 2 * old.closed.len());
        let new = convert(format!("the most, closed: {position}"), &old);
        let left = old.left_out();
        assert_eq!(new.len(), 29 + 8 * PLACES + 8 * (ROADS - old.closed.len()));
        let case = OracleCase::new(move || format!("the most, closed: {position}"), left.without_transit(1));
        let before = Network::old(old.bytes());
        for (s, t) in [(7, 9), (0, 4_095), (2_000, 3_333)] {
            let time = case.time(s, t, case.words()).result.unwrap();
            assert_eq!(time.time, before.map().unwrap().d(s as usize, t as usize), "closed: {position}, {s} to {t}");
            assert!(case.long_way(s, t, 2 * PLACES).result.is_ok());
        }
        assert!(files::most_room(&new) >= left.without_transit(1).len());
    }
}
