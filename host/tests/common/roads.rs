//! Roads by pattern, and which of them are quick: each network is made of places, a pattern and a number of roads.

use super::networks::Plan;
use jukesogbi::sample::Random;

/// The most seconds of a road.
const MOST: usize = 100_000;

/// Two ends and seconds.
pub type Road = (usize, usize, usize);

/// Seconds that differ from road to road, or mostly.
fn seconds(random: &mut Random) -> usize {
    if random.once_in(3) { 1_000 } else { 2 + random.below(MOST as u64 - 1) as usize }
}

/// Between any two places, in no order.
pub fn scattered(n: usize, count: usize) -> Vec<Road> {
    let mut random = Random((n * count) as u64);
    let ends = |random: &mut Random| {
        let u = random.below(n as u64) as usize;
        (u, (u + 1 + random.below(n as u64 - 1) as usize) % n)
    };
    (0..count).map(|_| ends(&mut random)).collect::<Vec<_>>().into_iter().map(|(u, v)| (u, v, seconds(&mut random))).collect()
}

pub fn sorted(n: usize, count: usize) -> Vec<Road> {
    let mut roads = scattered(n, count);
    roads.sort_by_key(|&(u, v, _)| (u.min(v), u.max(v)));
    roads
}

/// In both directions, each quicker than all before it.
pub fn side_by_side(a: usize, b: usize, count: usize) -> Vec<Road> {
    (0..count).map(|i| if i % 2 == 0 { (a, b, MOST - i) } else { (b, a, MOST - i) }).collect()
}

/// From each place to the next, again and again.
pub fn chain(n: usize, count: usize) -> Vec<Road> {
    (0..count).map(|i| (i % (n - 1), i % (n - 1) + 1, 1 + i % 7)).collect()
}

/// From the hub to each other place, so many times.
pub fn star(n: usize, hub: usize, times: usize) -> Vec<Road> {
    let spokes = (0..n).filter(|&v| v != hub);
    spokes.flat_map(|v| (0..times).map(move |k| if k % 2 == 0 { (hub, v, 9 + v % 100 + k) } else { (v, hub, 9 + v % 50 + k) })).collect()
}

pub fn shuffled(mut roads: Vec<Road>) -> Vec<Road> {
    Random(roads.len() as u64).shuffle(&mut roads);
    roads
}

// ---- Quick roads ----

/// Which of the roads take no time.
#[derive(Clone, Copy, Debug)]
pub enum Quick {
    None,
    Some,
    First,
    Last,
    EverySecond,
    All,
}

pub const QUICK: [Quick; 6] = [Quick::None, Quick::Some, Quick::First, Quick::Last, Quick::EverySecond, Quick::All];

/// The roads, those in these positions as quick as can be. Their number is as it was.
pub fn with_quick(mut roads: Vec<Road>, quick: Quick) -> Vec<Road> {
    let count = roads.len();
    let is_quick = |i: usize| match quick {
        Quick::None => false,
        Quick::Some => (i * 7_919).is_multiple_of(5),
        Quick::First => i == 0 || i < count / 8,
        Quick::Last => i == count - 1 || i >= count - count / 8,
        Quick::EverySecond => i % 2 == 1,
        Quick::All => true,
    };
    roads.iter_mut().enumerate().filter(|(i, _)| is_quick(*i)).for_each(|(_, road)| road.2 = 0);
    roads
}

// ---- Places ----

/// Over a square, by rows.
pub fn lattice(n: usize) -> Vec<(i32, i32)> {
    let side = (1..).find(|s| s * s >= n).unwrap();
    (0..n).map(|u| (100 * (u % side) as i32, 100 * (u / side) as i32)).collect()
}

pub fn line(n: usize) -> Vec<(i32, i32)> {
    (0..n as i32).map(|k| (100 * k, 0)).collect()
}

pub fn plan(places: Vec<(i32, i32)>, roads: Vec<Road>) -> Plan {
    Plan { places, roads: roads.iter().map(|&(u, v, seconds)| (u as u16, v as u16, seconds as u32)).collect() }
}
