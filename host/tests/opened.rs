//! An oracle that is checked when it is opened, and then asked many times: each answer is that of the call which checks, whatever was asked before. The
//! files that opening refuses are in damage.rs.

mod common;

use common::networks::{self, between, pick, Plan};
use common::reference::{self, Answer, Block, Built, Outcome, Pair, SIDE};
use common::{check_build, networks_to_try, NetworkCase, Opened, OracleCase};
use jukesogbi::core::{self, Kind, Refused};
use jukesogbi::oracle::Oracle;
use jukesogbi::sample::{self, Random};
use jukesogbi::{files, plain};
use std::borrow::Cow;

/// How often each rule was given, with 0 for none.
#[derive(Default)]
struct Given([u64; 18]);

impl Given {
    fn count<V>(&mut self, result: Result<V, u32>) {
        self.0[result.err().unwrap_or(0) as usize] += 1;
    }
}

// ---- Questions at random ----

/// A place of n, or now and then none.
fn name(random: &mut Random, n: usize) -> u32 {
    if random.once_in(16) { pick(random, &[n as u32, n as u32 + 1, 4_096, 65_536, u32::MAX]) } else { random.below(n as u64) as u32 }
}

/// One to twelve names, or now and then none or more.
fn side(random: &mut Random, n: usize) -> Vec<u32> {
    let count = if random.once_in(8) { pick(random, &[0, SIDE + 1, 40]) } else { between(random, 1, SIDE as i64) as usize };
    (0..count).map(|_| if random.once_in(6) { name(random, n) } else { random.below(n as u64) as u32 }).collect()
}

/// Puts one question, and the same again now and then.
fn question(opened: &mut Opened, n: usize, random: &mut Random, given: &mut Given) {
    let (s, t) = (name(random, n), name(random, n));
    for _ in 0..if random.once_in(5) { 2 } else { 1 } {
        match random.below(7) {
            0 | 1 => given.count(opened.time(s, t)),
            2 => given.count(opened.far(s, t)),
            3 | 4 => {
                let room = if random.once_in(3) { random.below(2 * n as u64) as usize } else { 2 * n + random.below(9) as usize };
                given.count(opened.way(s, t, room));
            }
            _ => given.count(opened.block(&side(random, n), &side(random, n))),
        }
    }
}

fn oracle(plan: &Plan, g: u32) -> Vec<u8> {
    reference::Network::of(plan.bytes()).oracle(g).bytes.clone()
}

/// Random networks and grids, each opened once with more words than it needs or as many, and asked in random order.
#[test]
fn random_networks() {
    let mut given = Given::default();
    for seed in 0..networks_to_try(400) {
        let mut random = Random(1_000_000 + seed);
        let plan = networks::network(&mut random);
        let (n, g) = (plan.places.len(), networks::grid(&mut random));
        let case = OracleCase::new(move || format!("oracle of seed {seed}"), oracle(&plan, g));
        let mut opened = case.open(case.words() + pick(&mut random, &[0, 0, 1, 8, 50])).unwrap();
        for _ in 0..60 {
            question(&mut opened, n, &mut random, &mut given);
        }
        given.count(case.open(case.words() - 1));
        given.count(case.open(random.below(case.words() as u64) as usize));
    }
    println!("given by rule: {:?}", given.0);
    for rule in [0, 12, 13, 14, 15, 17] {
        assert!(given.0[rule] > 0, "rule {rule} was never given");
    }
}

/// Every pair by every question, after every other kind of question.
#[test]
fn every_pair_after_every_question() {
    for (name, plan, g) in [
        ("Line", networks::line(), 6),
        ("Fork", networks::fork(), 6),
        ("Fork without road 4", networks::fork_without_4(), 6),
        ("two lines", networks::two_lines(), 6),
        ("four in a row", networks::four_in_a_row(), 16),
    ] {
        let n = plan.places.len() as u32;
        let case = OracleCase::new(move || name.to_string(), oracle(&plan, g));
        let mut opened = case.open(case.words()).unwrap();
        let all: Vec<u32> = (0..n).collect();
        for before in 0..9 {
            for s in 0..n {
                for t in 0..n {
                    let _ = match before {
                        0 => opened.time(t, s).is_ok(),
                        1 => opened.far(t, s).is_ok(),
                        2 => opened.way(t, s, 2 * n as usize).is_ok(),
                        3 => opened.way(t, s, 0).is_ok(),
                        4 => opened.block(&all, &all).is_ok(),
                        5 => opened.time(n, s).is_ok(),
                        6 => opened.way(s, n, 0).is_ok(),
                        7 => opened.block(&all, &[]).is_ok(),
                        _ => opened.block(&[n], &all).is_ok(),
                    };
                    assert!(opened.time(s, t).is_ok());
                    let _ = opened.far(s, t);
                    assert!(opened.way(s, t, 2 * n as usize).is_ok());
                    assert!(opened.block(&[s, t], &[t, s]).is_ok());
                }
            }
        }
    }
}

// ---- Few places and the most ----

#[test]
fn one_place() {
    for g in 1..=64 {
        let case = OracleCase::new(|| "one place".to_string(), oracle(&networks::one_place(), g));
        for words in [8, 9, 20] {
            let mut opened = case.open(words).unwrap();
            for _ in 0..3 {
                assert_eq!(opened.time(0, 0), Ok(Answer { far: false, time: Some(Pair::ZERO), pairs: 0 }));
                assert_eq!(opened.far(0, 0), Err(13));
                assert_eq!(opened.way(0, 0, 2), Ok(1));
                assert_eq!(opened.way(0, 0, 1), Err(15));
                assert_eq!(opened.block(&[0; SIDE], &[0; SIDE]), Ok(Block { times: [[0; SIDE]; SIDE], roads: [[0; SIDE]; SIDE] }));
                assert_eq!(opened.time(0, 1), Err(12));
                assert_eq!(opened.far(1, 0), Err(12));
                assert_eq!(opened.block(&[0; SIDE + 1], &[0]), Err(17));
                assert_eq!(opened.block(&[1; SIDE + 1], &[]), Err(12));
            }
        }
        for words in 0..8 {
            assert_eq!(case.open(words).err(), Some(14));
        }
    }
}

#[test]
fn two_places() {
    for roads in [vec![], vec![(0, 1, 7)], vec![(1, 0, 7), (0, 1, 5)], vec![(0, 1, 9); 50]] {
        for left in [&roads[..], &roads[roads.len().min(1)..]] {
            let plan = Plan { places: vec![(0, 0), (60, 9)], roads: left.to_vec() };
            for g in [1, 5, 6, 64] {
                let case = OracleCase::new(|| "two places".to_string(), oracle(&plan, g));
                let (mut opened, mut random, mut given) = (case.open(16).unwrap(), Random(g as u64), Given::default());
                for _ in 0..60 {
                    question(&mut opened, 2, &mut random, &mut given);
                }
                assert_eq!(case.open(15).err(), Some(14));
            }
        }
    }
}

/// Some questions to this network under g, built by the core as plain Rust builds it.
fn ask_much(name: &'static str, network: &[u8], g: u32, questions: usize) {
    let bytes = plain::build(network, g);
    let case = NetworkCase::new(move || name.to_string(), network.to_vec());
    let (n, words) = (case.reference.size(), case.words());
    let values = Built { length: bytes.len(), transit: reference::body(&bytes, 5).len() / 2 };
    check_build(&case.input, g, words, bytes.len(), &Outcome { result: Ok(values), zeroed: words, written: bytes.clone() });
    let asked = OracleCase::new(move || format!("{name} under {g}"), bytes);
    let (mut opened, mut random, mut given) = (asked.open(words + 3).unwrap(), Random(g as u64), Given::default());
    for _ in 0..questions {
        question(&mut opened, n, &mut random, &mut given);
    }
    assert_eq!(asked.open(words - 1).err(), Some(14));
}

#[test]
fn samples() {
    for n in [31, 32, 33, 100, 257, 1_024] {
        let network = sample::network(n, n as u64).to_bytes();
        for g in [1, 8, 24] {
            ask_much("sample", &network, g, 40);
        }
    }
}

#[test]
fn the_most_places() {
    ask_much("sample of the most places", &sample::network(4_096, 5).to_bytes(), 1, 12);
    // Nearly all lists are empty where there are few roads.
    let places = (0..4_096).map(|k| (100 * (k % 64), 100 * (k / 64))).collect();
    let plan = Plan { places, roads: vec![(0, 10, 100_000), (10, 30, 7), (30, 4_095, 1), (1, 2_000, 3)] };
    ask_much("most places, few roads", &plan.bytes(), 64, 60);
}

// ---- The safe calls of the host ----

/// The safe type gives the answers of the safe calls, from bytes that it owns or borrows, and so do its copies.
#[test]
fn the_safe_type() {
    for seed in 0..networks_to_try(60) {
        let mut random = Random(2_000_000 + seed);
        let plan = networks::network(&mut random);
        let (bytes, n) = (oracle(&plan, networks::grid(&mut random)), plan.places.len());
        let mut work = vec![0; files::words_needed(&bytes)];
        let mut owner = Oracle::open(bytes.clone()).unwrap();
        let mut borrower = Oracle::open(Cow::Borrowed(&bytes[..])).unwrap();
        assert!(owner.bytes() == bytes && borrower.bytes() == bytes);
        for _ in 0..40 {
            let (s, t) = (name(&mut random, n), name(&mut random, n));
            let mut copy = owner.clone();
            for oracle in [&mut owner, &mut borrower, &mut copy] {
                assert_eq!(oracle.time(s, t), core::time(&bytes, s, t, &mut work));
                assert_eq!(oracle.far(s, t), core::far(&bytes, s, t));
                for room in [2 * n, 4, 0] {
                    let (mut out, mut beside) = (vec![0xee; room], vec![0xee; room]);
                    assert_eq!(oracle.way(s, t, &mut out), core::way(&bytes, s, t, &mut work, &mut beside));
                    assert_eq!(out, beside);
                }
                let (starts, ends) = (side(&mut random, n), side(&mut random, n));
                assert_eq!(oracle.block(&starts, &ends), core::block(&bytes, &starts, &ends, &mut work));
            }
        }
    }
}

/// What it answers and refuses, by hand.
#[test]
fn the_safe_type_on_line() {
    let mut line = Oracle::open(oracle(&networks::line(), 6)).unwrap();
    let far = Ok(core::Answer { time: core::Time::of(16, 2), kind: Kind::Far, pairs: 1 });
    assert_eq!((line.time(0, 2), line.far(2, 0)), (far, far));
    assert_eq!(line.time(0, 1), Ok(core::Answer { time: core::Time::of(7, 1), kind: Kind::Local, pairs: 0 }));
    assert_eq!((line.far(0, 1), line.time(0, 3)), (Err(Refused(13)), Err(Refused(12))));
    let mut out = [9; 7];
    assert_eq!((line.way(2, 0, &mut out[..5]), out), (Err(Refused(15)), [9; 7]));
    assert_eq!((line.way(2, 0, &mut out), out), (Ok(3), [2, 0, 1, 0, 0, 0, 9]));
    assert_eq!(line.block(&[], &[0]), Err(Refused(17)));
    let block = line.block(&[0, 1], &[2]).unwrap();
    assert_eq!((block.times.map(|row| row[0])[..3].to_vec(), block.roads.map(|row| row[0])[..3].to_vec()), (vec![16, 9, 0], vec![2, 1, 0]));
    // A network is no oracle, and neither is nothing.
    assert_eq!(Oracle::open(networks::line().bytes()).err(), Some(Refused(1)));
    assert_eq!(Oracle::open(Vec::new()).err(), Some(Refused(1)));
}

/// Each thread with an opening of its own.
#[test]
fn several_threads() {
    let bytes = oracle(&networks::fork(), 6);
    let times = |oracle: &mut Oracle| -> Vec<_> { (0..25).map(|k| oracle.time(k / 5, k % 5).unwrap().time).collect() };
    let expected = times(&mut Oracle::open(&bytes[..]).unwrap());
    std::thread::scope(|scope| {
        for _ in 0..4 {
            scope.spawn(|| {
                let mut oracle = Oracle::open(&bytes[..]).unwrap();
                (0..50).for_each(|_| assert_eq!(times(&mut oracle), expected));
            });
        }
    });
}
