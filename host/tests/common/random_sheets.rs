//! Day sheets at random, with the networks and oracles that they are tried on: one set, for the core's calls and for what T-05 changed.

use super::networks::{self, between, pick, Plan};
use super::program::oracle;
use super::reference::sheets::{CLOSED, DELAYED};
use super::reference::{MOST_ROADS, MOST_SECONDS, NO_ROADS, NO_WALK};
use super::sheets::Line;
use super::tables::Tables;
use jukesogbi::sample::Random;

/// How many oracles there are of each sort, built and never built.
pub const ORACLES: u64 = 500;

/// An oracle, and several sheets beside it.
pub struct Drawn {
    pub plan: Plan,
    pub oracle: Vec<u8>,
    pub built: bool,
    pub sheets: Vec<Vec<Line>>,
    /// For whatever else is to be chosen.
    pub random: Random,
}

impl Drawn {
    pub fn built(seed: u64) -> Drawn {
        let mut random = Random(3_000_000 + seed);
        let (plan, g) = (networks::network(&mut random), networks::grid(&mut random));
        Drawn::over(oracle(&plan, g), true, plan, random)
    }

    pub fn never_built(seed: u64) -> Drawn {
        let mut random = Random(4_000_000 + seed);
        let (plan, g) = (networks::network(&mut random), networks::grid(&mut random));
        Drawn::over(never_built(&mut random, &plan, g), false, plan, random)
    }

    fn over(oracle: Vec<u8>, built: bool, plan: Plan, mut random: Random) -> Drawn {
        let sheets = (0..4).map(|_| lines(&mut random, &plan)).collect();
        Drawn { plan, oracle, built, sheets, random }
    }
}

/// Lists and a table of random values, those of the network with other roads, or the right ones with some values replaced.
pub fn never_built(random: &mut Random, plan: &Plan, g: u32) -> Vec<u8> {
    let n = plan.places.len();
    let mut tables = match random.below(3) {
        0 => Tables::random(random, n),
        1 => Tables::of(&oracle(plan, g), n),
        _ => {
            let mut other = plan.clone();
            for road in &mut other.roads {
                if random.once_in(3) {
                    road.2 = pick(random, &[0, road.2 % 100_000 + 1]);
                }
            }
            other.roads.retain(|_| !random.once_in(5));
            Tables::of(&oracle(&other, g), n)
        }
    };
    for value in tables.values() {
        if random.once_in(4) {
            *value = pick(random, &[(NO_WALK, NO_ROADS), (MOST_SECONDS, MOST_ROADS), (0, 0), (7, 2), (7, 1)]);
        }
    }
    tables.oracle(plan, g)
}

/// A line about a road that keeps 18 and 19, and mostly 20. It is a closure once in so many times, or never.
fn line(random: &mut Random, plan: &Plan, road: u16, closing: u64) -> Line {
    if closing > 0 && random.once_in(closing) {
        return (CLOSED, road, 0);
    }
    let most = 100_000 - plan.roads[road as usize].2;
    let added = match random.below(12) {
        0 => 0,
        1 | 2 => most,
        // Beyond what any road may take, by a second and by far. Often another line about the road holds.
        3 if random.once_in(6) => pick(random, &[most + 1, u32::MAX, u32::MAX - 100_000]),
        4..=6 => most.min(1 + random.below(3) as u32),
        _ => most.min(random.below(200) as u32),
    };
    (DELAYED, road, added)
}

/// From no line to many more than there are roads. Few roads are named again and again, or all of them. A closure holds over all delays of its road, so in
/// some sheets there are few closures, or none.
pub fn lines(random: &mut Random, plan: &Plan) -> Vec<Line> {
    let roads = plan.roads.len();
    if roads == 0 {
        return if random.once_in(4) { vec![(CLOSED, 0, 0)] } else { Vec::new() };
    }
    let count = pick(random, &[0, 1, 1, 2, 3, roads / 2, roads, 3 * roads]);
    let named = if random.once_in(2) { roads } else { roads.min(3) };
    let from = between(random, 0, (roads - named) as i64) as usize;
    let closing = pick(random, &[2, 2, 5, 0]);
    let mut lines: Vec<Line> = (0..count)
        .map(|_| {
            let road = (from + random.below(named as u64) as usize) as u16;
            line(random, plan, road, closing)
        })
        .collect();
    // Now and then a line that names no road.
    if !lines.is_empty() && random.once_in(12) {
        let at = random.below(lines.len() as u64) as usize;
        lines[at].1 = pick(random, &[roads as u16, roads as u16 + 1, 16_384, u16::MAX]);
    }
    lines
}
