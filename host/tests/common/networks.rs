//! Networks to try the calls on: those of document 01's trials, and random ones with what tends to go wrong: ties, roads of no time, roads side by side,
//! roads left out, islands, long roads, many places in one cell, extreme coordinates. And old networks, some of whose roads are closed.

use super::reference::{self, bytes_16, bytes_32};
use jukesogbi::sample::Random;

#[derive(Clone, Debug, Default, PartialEq, Eq)]
pub struct Plan {
    pub places: Vec<(i32, i32)>,
    /// Two ends and seconds.
    pub roads: Vec<(u16, u16, u32)>,
}

impl Plan {
    /// Body 3 is empty.
    pub fn bodies(&self) -> [Vec<u8>; 3] {
        let coordinate = |v: i32| bytes_32(v as u32 as usize);
        [
            self.places.iter().flat_map(|&(x, y)| [coordinate(x), coordinate(y)].concat()).collect(),
            self.roads.iter().flat_map(|&(a, b, s)| [&bytes_16(a as usize)[..], &bytes_16(b as usize), &bytes_32(s as usize)].concat()).collect(),
            Vec::new(),
        ]
    }

    pub fn bytes(&self) -> Vec<u8> {
        reference::file(&self.bodies())
    }

    /// An oracle with T 0 and all lists empty, as building gives it where nothing is far. Bodies 6 and 7 need no search then.
    pub fn without_transit(&self, g: u32) -> Vec<u8> {
        let [places, roads, closed] = self.bodies();
        let n = self.places.len();
        let access = (0..n).flat_map(|u| bytes_32(4 * n + 2 * u)).chain(vec![0; 2 * n]).collect();
        reference::file(&[places, roads, closed, bytes_16(g as usize).to_vec(), Vec::new(), access, Vec::new()])
    }
}

// ---- Old networks ----

/// A network of before T-06.
#[derive(Clone, Debug, Default, PartialEq, Eq)]
pub struct Old {
    pub plan: Plan,
    /// Numbers of roads, rising where they are well-formed.
    pub closed: Vec<u16>,
}

impl Old {
    pub fn of(plan: Plan, closed: impl IntoIterator<Item = u16>) -> Old {
        Old { plan, closed: closed.into_iter().collect() }
    }

    pub fn bodies(&self) -> [Vec<u8>; 3] {
        let [places, roads, _] = self.plan.bodies();
        [places, roads, self.closed.iter().flat_map(|&c| bytes_16(c as usize)).collect()]
    }

    pub fn bytes(&self) -> Vec<u8> {
        reference::file(&self.bodies())
    }

    /// The same network with its closed roads left out.
    pub fn left_out(&self) -> Plan {
        let open = self.plan.roads.iter().enumerate().filter(|(i, _)| !self.closed.contains(&(*i as u16)));
        Plan { places: self.plan.places.clone(), roads: open.map(|(_, road)| *road).collect() }
    }

    /// Its oracle, as it would be in today's edition.
    pub fn oracle(&self, g: u32) -> Vec<u8> {
        reference::Network::old(self.bytes()).oracle(g).bytes.clone()
    }
}

/// Document 01's closed trial as it was.
pub fn fork_closed() -> Old {
    Old::of(fork(), [4])
}

// ---- The networks of the trials ----

pub fn line() -> Plan {
    Plan { places: vec![(0, 0), (30, 0), (60, 0)], roads: vec![(0, 1, 7), (1, 2, 9)] }
}

pub fn fork() -> Plan {
    Plan {
        places: vec![(0, 0), (30, 0), (30, 10), (50, 0), (60, 0)],
        roads: vec![(0, 1, 5), (0, 2, 5), (1, 3, 5), (2, 3, 5), (3, 4, 1)],
    }
}

/// Document 01's closed trial, with the road left out.
pub fn fork_without_4() -> Plan {
    Plan { roads: fork().roads[..4].to_vec(), ..fork() }
}

pub fn one_place() -> Plan {
    Plan { places: vec![(0, 0)], ..Plan::default() }
}

pub fn four_in_a_row() -> Plan {
    Plan { places: vec![(-7, 0), (0, 0), (1, 0), (8, 0)], ..Plan::default() }
}

/// Two lines side by side with nothing between them: each list has an entry of 'no walk', and so has the table.
pub fn two_lines() -> Plan {
    Plan {
        places: vec![(0, 0), (30, 0), (60, 0), (0, 1), (30, 1), (60, 1)],
        roads: vec![(0, 1, 7), (1, 2, 9), (3, 4, 2), (4, 5, 100_000)],
    }
}

/// A wide junction "as two places joined by a road of 0 seconds": Line with its middle place doubled.
pub fn junction() -> Plan {
    Plan { places: vec![(0, 0), (30, 0), (31, 0), (60, 0)], roads: vec![(0, 1, 7), (1, 2, 0), (2, 3, 9)] }
}

/// Three places in a ring of roads of 0 seconds between two others.
pub fn ring() -> Plan {
    Plan {
        places: vec![(0, 0), (30, 0), (30, 10), (31, 0), (60, 0)],
        roads: vec![(0, 1, 7), (1, 2, 0), (2, 3, 0), (3, 1, 0), (3, 4, 9)],
    }
}

/// Two equally quick ways from 0 to 3, by 1 and 2 and, with one road less, by 4; and a single road that is slower.
pub fn tie() -> Plan {
    Plan {
        places: vec![(0, 0), (10, 0), (20, 0), (30, 0), (15, 5)],
        roads: vec![(0, 1, 2), (1, 2, 0), (2, 3, 2), (0, 4, 1), (4, 3, 3), (0, 3, 5)],
    }
}

// ---- The most places ----

/// One place in each cell of a grid of 64, in chains whose neighbours are far from each other: an oracle of 50 megabytes that is built in a moment.
pub fn chains() -> Plan {
    Plan {
        places: (0..4096).map(|i| (100 * (i % 64), 100 * (i / 64))).collect(),
        roads: (0..4096 - 512).map(|i| (i, i + 512, 5)).collect(),
    }
}

/// The same places and about as many roads as there can be, in no order: building this takes long.
pub fn dense() -> Plan {
    let road = |i: u32| ((i * 7919 % 4095) as u16, 4095 - (i * 31 % 2000) as u16, 1 + i);
    Plan { roads: (0..16_384).map(road).filter(|road| road.0 != road.1).collect(), ..chains() }
}

// ---- Random networks ----

pub fn pick<T: Copy>(random: &mut Random, from: &[T]) -> T {
    from[random.below(from.len() as u64) as usize]
}

pub fn between(random: &mut Random, least: i64, most: i64) -> i64 {
    least + random.below((most - least + 1) as u64) as i64
}

/// Few places mostly, so that all definitions can be gone through by force.
fn size(random: &mut Random) -> usize {
    let most = match random.below(20) {
        0 => 2,
        1..=15 => 14,
        16..=18 => 22,
        _ => 40,
    };
    between(random, if most > 20 { 12 } else { 1 }, most) as usize
}

fn places(random: &mut Random, n: usize) -> Vec<(i32, i32)> {
    let span = pick(random, &[5, 12, 60, 63, 64, 65, 100, 1_000, 40_000]);
    let (left, bottom) = (between(random, -900_000, 900_000), between(random, -900_000, 900_000));
    let shape = random.below(16);
    let place = |k: usize, random: &mut Random| -> (i64, i64) {
        let along = k as i64 * span / n.max(2) as i64;
        match shape {
            // On a line, in either direction or both, so that far pairs are common.
            0..=2 => (left + along, bottom),
            3 | 4 => (left, bottom + along),
            5 => (left + along, bottom - along),
            // A band along a line, in which several places share a row or a cell.
            6..=8 => (left + along + between(random, 0, span / 8), bottom + between(random, 0, span / 5)),
            // A square.
            9 | 10 => (left + between(random, 0, span), bottom + between(random, 0, span)),
            // A lattice.
            11 => (left + k as i64 % 4 * (span / 3), bottom + k as i64 / 4 * (span / 4)),
            // Two heaps of places with nothing between them.
            12 => (left + if k.is_multiple_of(2) { 0 } else { span * 9 / 10 } + between(random, 0, span / 10), bottom + between(random, 0, span / 10)),
            // At the limits of the coordinates.
            13 => (pick(random, &[-1_000_000, -999_999, 0, 999_999, 1_000_000]), pick(random, &[-1_000_000, 0, 1_000_000])),
            14 => (-1_000_000 + 2_000_000 * k as i64 / (n as i64 - 1).max(1), between(random, -1_000_000, 1_000_000)),
            // All in one spot.
            _ => (left, bottom),
        }
    };
    let mut list: Vec<(i32, i32)> = (0..n).map(|k| place(k, random)).map(|(x, y)| (x as i32, y as i32)).collect();
    // Numbers that do not follow the ground: the smaller end of a road then lies on either side of a square's edge.
    if !random.once_in(3) {
        for i in (1..n).rev() {
            list.swap(i, random.below(i as u64 + 1) as usize);
        }
    }
    list
}

/// Seconds of one road, by the network's habit.
fn seconds(random: &mut Random, habit: u64, metres: i64) -> u32 {
    let s = match habit {
        // Few distinct values, so that equally quick ways are common.
        0..=3 => between(random, 1, 2),
        4 | 5 => 5,
        6 => pick(random, &[1, 2, 3, 4, 6]),
        7 => metres,
        8 => between(random, 1, 100),
        9 => pick(random, &[1, 99_999, 100_000]),
        10 => 100_000,
        // No time at all: everywhere, often, and now and then.
        11 => 0,
        12 => pick(random, &[0, 0, 1]),
        13 => pick(random, &[0, 1, 2, 4]),
        _ => pick(random, &[0, 5, 5, 100_000]),
    };
    s.clamp(0, 100_000) as u32
}

fn metres(a: (i32, i32), b: (i32, i32)) -> i64 {
    (a.0 as i64 - b.0 as i64).abs().max((a.1 as i64 - b.1 as i64).abs())
}

/// An old one with its closed roads left out.
pub fn network(random: &mut Random) -> Plan {
    old_network(random).left_out()
}

/// With no closed road, some, many or all of them closed.
pub fn old_network(random: &mut Random) -> Old {
    let plan = all_roads(random);
    let closing = pick(random, &[0, 0, 12, 6, 2, 1]);
    let closed: Vec<u16> = (0..plan.roads.len() as u16).filter(|_| closing != 0 && random.once_in(closing)).collect();
    Old { plan, closed }
}

fn all_roads(random: &mut Random) -> Plan {
    let n = size(random);
    let places = places(random, n);
    let habit = random.below(15);
    let mut roads: Vec<(u16, u16, u32)> = Vec::new();
    let mut join = |a: usize, b: usize, random: &mut Random| {
        if a != b {
            let (a, b) = if random.once_in(2) { (a, b) } else { (b, a) };
            roads.push((a as u16, b as u16, seconds(random, habit, metres(places[a], places[b]))));
        }
    };
    // A chain from each place to the next along the ground; gaps in it leave islands.
    let mut order: Vec<usize> = (0..n).collect();
    order.sort_by_key(|&u| (places[u].0 as i64 + places[u].1 as i64 / 2, u));
    let gaps = pick(random, &[0, 0, 0, 3, 8]);
    for w in order.windows(2) {
        if gaps == 0 || !random.once_in(gaps) {
            join(w[0], w[1], random);
        }
    }
    // Roads that skip one or two places, so that there are several ways; roads between any two; roads beside others.
    for k in 0..n {
        if random.once_in(2) {
            let on = k + between(random, 2, 3) as usize;
            if on < n {
                join(order[k], order[on], random);
            }
        }
    }
    for _ in 0..random.below(1 + n as u64 / 3) {
        join(random.below(n as u64) as usize, random.below(n as u64) as usize, random);
    }
    for _ in 0..random.below(3) {
        if !roads.is_empty() {
            let (a, b, s) = pick(random, &roads);
            let other = if random.once_in(2) { s } else { pick(random, &[0, (s % 100_000) + 1]) };
            roads.push(if random.once_in(2) { (a, b, other) } else { (b, a, other) });
        }
    }
    if random.once_in(25) {
        roads.clear();
    }
    // Roads in no order, so that nothing hangs on their numbers.
    for i in (1..roads.len()).rev() {
        roads.swap(i, random.below(i as u64 + 1) as usize);
    }
    Plan { places, roads }
}

/// A grid number: mostly one under which far pairs and lists with entries are common.
pub fn grid(random: &mut Random) -> u32 {
    match random.below(12) {
        0 => between(random, 1, 5) as u32,
        1 => 64,
        2 => between(random, 1, 64) as u32,
        3..=5 => between(random, 6, 9) as u32,
        _ => between(random, 8, 24) as u32,
    }
}
