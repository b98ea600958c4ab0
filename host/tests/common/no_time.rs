//! Random networks with many roads of no time, and with walks as quick as others that have more roads.

use super::networks::{self, between, pick, Plan};
use jukesogbi::sample::Random;

/// What a network has many of.
#[derive(Clone, Copy, Debug)]
pub enum Sort {
    /// All roads are of no time.
    All,
    /// All but few.
    Most,
    /// Rings of such roads, joined by others.
    Rings,
    /// Each road has others beside it, some of no time.
    Parallel,
    /// Each place is two, joined by such a road.
    Junctions,
    /// Seconds are metres along a line, so that walks straight on are as quick whatever number of roads they have.
    Ties,
}

pub fn network(random: &mut Random, sort: Sort) -> Plan {
    let mut plan = match sort {
        Sort::Rings => rings(random),
        Sort::Ties => ties(random),
        _ => networks::network(random),
    };
    match sort {
        Sort::All => plan.roads.iter_mut().for_each(|road| road.2 = 0),
        Sort::Most => plan.roads.iter_mut().for_each(|road| road.2 = if random.once_in(6) { 1 + random.below(3) as u32 } else { 0 }),
        Sort::Parallel => double_roads(random, &mut plan),
        Sort::Junctions => double_places(random, &mut plan),
        Sort::Rings | Sort::Ties => {}
    }
    random.shuffle(&mut plan.roads);
    plan
}

/// A row of rings, each of 1 to 6 places within one cell or over several, and roads from each to the next.
fn rings(random: &mut Random) -> Plan {
    let (mut plan, mut before) = (Plan::default(), None);
    for k in 0..between(random, 1, 5) as i32 {
        let (first, size) = (plan.places.len() as u16, between(random, 1, 6) as u16);
        let wide = pick(random, &[1, 30, 120]);
        plan.places.extend((0..size).map(|_| (100 * k + random.below(wide) as i32, random.below(wide) as i32)));
        let member = |random: &mut Random| first + random.below(size as u64) as u16;
        if size > 1 {
            plan.roads.extend((0..size).map(|i| (first + i, first + (i + 1) % size, 0)));
        }
        if let Some((other, count)) = before {
            for _ in 0..1 + random.below(3) {
                let from = other + random.below(count as u64) as u16;
                plan.roads.push((from, member(random), pick(random, &[0, 1, 1, 4])));
            }
        }
        before = Some((first, size));
    }
    plan
}

/// Places on a line, most of them joined to several before them.
fn ties(random: &mut Random) -> Plan {
    let n = between(random, 2, 14) as u16;
    let mut plan = Plan { places: (0..n as i32).map(|k| (10 * k, 0)).collect(), roads: Vec::new() };
    for v in 1..n {
        for _ in 0..1 + random.below(3) {
            let u = v - 1 - random.below((v as u64).min(5)) as u16;
            // Now and then a second more, and so no tie.
            plan.roads.push((u, v, 10 * (v - u) as u32 + random.once_in(8) as u32));
        }
    }
    // Numbers that do not follow the ground.
    let mut numbers: Vec<u16> = (0..n).collect();
    random.shuffle(&mut numbers);
    let places = (0..n).map(|k| plan.places[numbers.iter().position(|&number| number == k).unwrap()]).collect();
    let roads = plan.roads.into_iter().map(|(u, v, seconds)| (numbers[u as usize], numbers[v as usize], seconds)).collect();
    Plan { places, roads }
}

fn double_roads(random: &mut Random, plan: &mut Plan) {
    for (a, b, seconds) in plan.roads.clone() {
        for _ in 0..1 + random.below(2) {
            let other = pick(random, &[0, 0, seconds, (seconds + 1).min(100_000)]);
            plan.roads.push(if random.once_in(2) { (a, b, other) } else { (b, a, other) });
        }
    }
}

/// The second of the two has the first's number and as many more as there were places.
fn double_places(random: &mut Random, plan: &mut Plan) {
    let n = plan.places.len() as u16;
    // At the limit of the coordinates it stands in the same spot.
    let beside: Vec<(i32, i32)> = plan.places.iter().map(|&(x, y)| ((x + 1).min(1_000_000), y)).collect();
    plan.places.extend(beside);
    for road in &mut plan.roads {
        for end in [&mut road.0, &mut road.1] {
            *end += if random.once_in(2) { n } else { 0 };
        }
    }
    plan.roads.extend((0..n).map(|u| if random.once_in(2) { (u, u + n, 0) } else { (u + n, u, 0) }));
}
