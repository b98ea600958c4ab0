//! Searches that try a heap, at sizes about the powers of two: ties everywhere, places that enter in rising or in falling order, places that are
//! lowered from the bottom to the top, many held at once, few, and none. All is held against the reference, which goes over the roads until
//! nothing changes and so holds no places at all.

mod common;

use common::networks::Plan;
use common::reference::{self, Built, Outcome, SIDE};
use common::{check_audit, check_build, NetworkCase, OracleCase};
use jukesogbi::plain;
use jukesogbi::sample::Random;

const PLACES: usize = 4_096;
const ROADS: usize = 16_384;
const MOST: usize = 100_000;

/// Each power of two up to the most places, one less and one more.
fn sizes(from: usize, to: usize) -> Vec<usize> {
    let mut all: Vec<usize> = (0..=12).flat_map(|k| [(1 << k) - 1, 1 << k, (1 << k) + 1]).collect();
    all.retain(|n| (from..=to).contains(n));
    all.dedup();
    all
}

// ---- Networks ----

/// Two ends and seconds.
type Road = (usize, usize, usize);

/// All places held at once, after the first is settled.
fn star(n: usize, seconds: impl Fn(usize) -> usize) -> Vec<Road> {
    (1..n).map(|v| (0, v, seconds(v))).collect()
}

/// Places by rows, each joined to the next in its row and to the one below.
fn mesh(n: usize, seconds: usize) -> Vec<Road> {
    let side = side(n);
    let joined = |u: usize| [(u, u + 1, seconds), (u, u + side, seconds)].into_iter().filter(move |&(_, v, _)| v < n && (v != u + 1 || v % side != 0));
    (0..n).flat_map(joined).collect()
}

fn side(n: usize) -> usize {
    (1..).find(|s| s * s >= n).unwrap()
}

/// So many roads between places at random.
fn scattered(n: usize, count: usize, mut seconds: impl FnMut(&mut Random) -> usize) -> Vec<Road> {
    let mut random = Random(n as u64);
    let mut roads = Vec::new();
    for _ in 0..if n > 1 { count.min(ROADS) } else { 0 } {
        let u = random.below(n as u64) as usize;
        let v = (u + 1 + random.below(n as u64 - 1) as usize) % n;
        roads.push((u, v, seconds(&mut random)));
    }
    roads
}

/// A road for every pair, or as many as may be about at random.
fn all_joined(n: usize) -> Vec<Road> {
    let pairs = n * (n - 1) / 2;
    if pairs > ROADS {
        return scattered(n, 4 * n, |_| 6);
    }
    (0..n).flat_map(|u| (0..u).map(move |v| (u, v, 6))).collect()
}

/// The first place, the last, the second, the last but one and so on.
fn from_both_ends(n: usize) -> Vec<usize> {
    (0..n).map(|i| if i % 2 == 0 { i / 2 } else { n - 1 - i / 2 }).collect()
}

/// All places held at once in rising order, and then each one settled lowers one of the last of them to the first.
fn short_cuts(n: usize) -> Vec<Road> {
    let order = from_both_ends(n);
    star(n, |v| 90_000 + v).into_iter().chain(order.windows(2).map(|w| (w[0], w[1], 1))).collect()
}

/// The nearer half is settled in turn, and each of it lowers a place of the farther half to the time of the next.
fn late_short_cuts(n: usize) -> Vec<Road> {
    let half = n / 2;
    let far = |v: usize| if v <= half { v } else { 90_000 + v };
    star(n, far).into_iter().chain((1..n - half).map(|v| (v + half, v, 1))).collect()
}

/// Four roads to each place from the first, each quicker than all before it: each brings its place from anywhere to the top.
fn lowered_each(n: usize) -> Vec<Road> {
    let count = n - 1;
    (0..4 * count).map(|i| (1 + i % count, 0, MOST - i)).collect()
}

/// All places held, and the last one lowered again and again past all others.
fn lowered_one(n: usize) -> Vec<Road> {
    let again = if n > 1 { (3 * n).min(ROADS - (n - 1)) } else { 0 };
    star(n, |v| 20_000 + v).into_iter().chain((0..again).map(|i| (0, n - 1, 20_000 - i))).collect()
}

/// All but few places held by a walk of many roads, most of them of no time; then each is lowered by one that is as quick and has two roads.
fn lowered_in_roads(n: usize) -> Vec<Road> {
    let many = (n / 4).min(9);
    let chain = (0..many).map(|u| (u, u + 1, 0));
    let other = many + 1;
    let held = (other + 1..n).flat_map(|v| [(many, v, 9), (v, other, 7)]);
    chain.chain((other < n).then_some((0, other, 2))).chain(held).collect()
}

/// Each place joined to the four after it.
fn band(n: usize, seconds: impl Fn(usize) -> usize) -> Vec<Road> {
    let pairs = (0..n).flat_map(|u| (u + 1..n.min(u + 5)).map(move |v| (u, v)));
    pairs.enumerate().map(|(i, (u, v))| (u, v, seconds(i))).collect()
}

/// The roads without some, by their number.
fn without(roads: Vec<Road>, left_out: fn(usize) -> bool) -> Vec<Road> {
    roads.into_iter().enumerate().filter(|(i, _)| !left_out(*i)).map(|(_, road)| road).collect()
}

/// The networks of one size: a name and the roads.
fn networks(n: usize) -> Vec<(&'static str, Vec<Road>)> {
    let chain = |seconds: fn(usize) -> usize| (1..n).map(|v| (v - 1, v, seconds(v))).collect::<Vec<Road>>();
    let reversed = |mut roads: Vec<Road>| {
        roads.reverse();
        roads
    };
    vec![
        // All times equal.
        ("star of equal times", star(n, |_| 7)),
        ("mesh of equal times", mesh(n, 5)),
        ("layers of equal times, each twice the one before", (1..n).map(|v| (v, (v - 1) / 2, 9)).collect()),
        ("all joined in equal times", all_joined(n)),
        // Times falling.
        ("star of falling times", star(n, |v| MOST - v)),
        ("star of falling times, from the last place on", reversed(star(n, |v| v))),
        ("band of falling times", band(n, |i| MOST - i)),
        ("each place lowered again and again", lowered_each(n)),
        ("one place lowered again and again", lowered_one(n)),
        ("short cuts from both ends", short_cuts(n)),
        ("late short cuts", late_short_cuts(n)),
        // Times rising.
        ("star of rising times", star(n, |v| v)),
        ("star of rising times, from the last place on", reversed(star(n, |v| MOST - v))),
        ("band of rising times", band(n, |i| 1 + i)),
        ("chain of rising times", chain(|v| v)),
        // No time, so that roads alone tell which is nearer.
        ("star of no time", star(n, |_| 0)),
        ("mesh of no time", mesh(n, 0)),
        ("chain of no time, from both ends", from_both_ends(n).windows(2).map(|w| (w[0], w[1], 0)).collect()),
        ("band of no time", band(n, |_| 0)),
        ("lowered in roads alone", lowered_in_roads(n)),
        ("no time or a second at random", scattered(n, 3 * n, |random| random.below(2) as usize)),
        // The largest sums.
        ("chain of the longest roads", reversed(chain(|_| MOST))),
        ("chain of the longest roads, from both ends", from_both_ends(n).windows(2).map(|w| (w[1], w[0], MOST)).collect()),
        // Some places out of reach, or all.
        ("two stars", (2..n).map(|v| (v % 2, v, v)).collect()),
        ("star with roads left out", without([star(n, |v| v), star(n, |v| 50_000 - v)].concat(), |i| i % 3 == 0 || i % 7 < 4)),
        ("star of every third road", without(star(n, |v| v), |i| i % 3 != 1)),
        ("no road", Vec::new()),
        // At random.
        ("times at random", without(scattered(n, 4 * n, |random| 1 + random.below(MOST as u64) as usize), |i| i % 6 == 5)),
        ("few times at random", scattered(n, 3 * n, |random| 1 + random.below(3) as usize)),
    ]
}

fn plan(n: usize, roads: &[Road]) -> Plan {
    let side = side(n);
    Plan {
        places: (0..n).map(|u| (100 * (u % side) as i32, 100 * (u / side) as i32)).collect(),
        roads: roads.iter().map(|&(u, v, seconds)| (u as u16, v as u16, seconds as u32)).collect(),
    }
}

// ---- Questions ----

/// Asked under 1, where no pair is far, so that every time and way takes a search.
fn searched(n: usize, name: &'static str, plan: &Plan) -> OracleCase {
    OracleCase::new(move || format!("{n} places, {name}"), plan.without_transit(1))
}

/// The times from these starts to these ends, in blocks.
fn block_by_block(case: &OracleCase, starts: &[u32], ends: &[u32]) {
    for from in starts.chunks(SIDE) {
        for to in ends.chunks(SIDE) {
            assert!(case.block(from, to, case.words()).result.is_ok());
        }
    }
}

/// Up to `count` ends: all, or from the last on those about the powers of two, and some at random.
fn ends(n: usize, count: usize) -> Vec<u32> {
    if n <= count {
        return (0..n as u32).collect();
    }
    let mut random = Random(count as u64);
    let mut chosen: Vec<u32> = sizes(1, n).into_iter().rev().map(|v| v as u32 - 1).collect();
    chosen.resize_with(count, || random.below(n as u64) as u32);
    chosen
}

// ---- The tests ----

/// Building under these grids, the audit, which builds anew and so only where that is quick, all pairs by block, and ways from all places.
fn build_and_ask(n: usize, grids: &[u32]) {
    for (name, roads) in networks(n) {
        let plan = plan(n, &roads);
        let network = NetworkCase::new(move || format!("{n} places, {name}"), plan.bytes());
        let all: Vec<u32> = (0..n as u32).collect();
        for &g in grids {
            let oracle = network.reference.oracle(g).bytes.clone();
            assert!(network.build(g, network.words(), oracle.len()).result.is_ok());
            let asked = OracleCase::new(move || format!("{n} places, {name}, under {g}"), oracle);
            if n <= 33 {
                assert_eq!(asked.audit(asked.words()).result, Ok(()));
            }
            block_by_block(&asked, &all, &all);
        }
        let asked = searched(n, name, &plan);
        assert_eq!(asked.reference.bytes, network.reference.oracle(1).bytes, "the oracle under 1 is another");
        for s in 0..n as u32 {
            asked.long_way(s, (5 * s + 3) % n as u32, 2 * n);
            asked.time(s, (7 * s + 1) % n as u32, asked.words());
        }
    }
}

/// Building and the audit, against plain Rust's bytes: the marks go over the
/// places in the order in which a search has settled them.
fn build_in_order(n: usize, g: u32) {
    for (name, roads) in networks(n).into_iter().filter(|(_, roads)| roads.len() <= 4 * n) {
        let plan = plan(n, &roads);
        let bytes = plain::build(&plan.bytes(), g);
        let network = NetworkCase::new(move || format!("{n} places, {name}, under {g}"), plan.bytes());
        let values = Built { length: bytes.len(), transit: reference::body(&bytes, 5).len() / 2 };
        let words = network.words();
        check_build(&network.input, g, words, bytes.len(), &Outcome { result: Ok(values), zeroed: words, written: bytes.clone() });
        let asked = OracleCase::new(move || format!("{n} places, {name}, under {g}"), bytes);
        check_audit(&asked.input, words, &Outcome { result: Ok(()), zeroed: words, written: Vec::new() });
    }
}

/// The times from the first place to `count` ends, to some from other starts, and a way. A way is found by a search from its end.
fn ask(n: usize, count: usize) {
    for (name, roads) in networks(n) {
        let asked = searched(n, name, &plan(n, &roads));
        let last = n as u32 - 1;
        block_by_block(&asked, &[0], &ends(n, count));
        block_by_block(&asked, &[last], &ends(n, SIDE));
        asked.long_way(last, last / 2, 2 * n);
        asked.time(last / 3, 0, asked.words());
    }
}

#[test]
fn sizes_to_33() {
    sizes(1, 33).into_iter().for_each(|n| build_and_ask(n, &[1, 9, 64]));
}

#[test]
fn sizes_about_64() {
    sizes(63, 65).into_iter().for_each(|n| build_and_ask(n, &[1, 9]));
}

#[test]
fn orders_at_sizes_about_128() {
    sizes(127, 129).into_iter().for_each(|n| build_in_order(n, 7));
}

#[test]
fn sizes_from_127_to_513() {
    sizes(127, 513).into_iter().for_each(|n| ask(n, n));
}

#[test]
fn sizes_about_1024() {
    sizes(1_023, 1_025).into_iter().for_each(|n| ask(n, 12 * SIDE));
}

#[test]
fn sizes_about_2048() {
    sizes(2_047, 2_049).into_iter().for_each(|n| ask(n, 4 * SIDE));
}

#[test]
fn one_less_than_the_most() {
    ask(PLACES - 1, 2 * SIDE);
}

#[test]
fn the_most() {
    ask(PLACES, 3 * SIDE);
}

/// Every place of the most, on a network in which all are held at once and half of them are lowered from the bottom to the top.
#[test]
fn every_end_of_the_most() {
    let asked = searched(PLACES, "late short cuts", &plan(PLACES, &late_short_cuts(PLACES)));
    block_by_block(&asked, &[0], &ends(PLACES, PLACES));
}
