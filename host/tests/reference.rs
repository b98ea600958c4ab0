//! The reference held against what else is known: the trials of document 01, other ways to the least pairs, all least walks one by one, and
//! the promise that a far answer is the least pair. No call of the core is made here.

// The differential tests use the rest.
#![allow(dead_code)]

#[path = "common/networks.rs"]
mod networks;
#[path = "common/reference.rs"]
mod reference;

use jukesogbi::plain;
use jukesogbi::sample::Random;
use networks::Plan;
use reference::{Answer, Block, Built, Map, Network, Pair, Questions};

/// More than any small network needs.
const MUCH: usize = 10_000;

fn asked(plan: &Plan, g: u32) -> Questions {
    Questions::of(Network::of(plan.bytes()).oracle(g).bytes.clone())
}

/// The time is seconds and roads.
fn answer(far: bool, time: Option<(u64, u64)>, pairs: usize) -> Result<Answer, u32> {
    Ok(Answer { far, time: time.map(|(seconds, roads)| Pair { seconds, roads }), pairs })
}

// ---- The trials ----

#[test]
fn trials_on_line() {
    let network = Network::of(networks::line().bytes());
    let oracle = network.oracle(6);
    assert_eq!((oracle.bytes.len(), &oracle.transit[..]), (149, &[1][..]));
    assert_eq!(network.build(6, 24, 149).result, Ok(Built { length: 149, transit: 1 }));
    assert_eq!(network.build(6, 23, 149).result, Err(14));
    assert_eq!(network.build(6, 24, 148).result, Err(15));
    let line = asked(&networks::line(), 6);
    assert_eq!(line.time(0, 2, MUCH).result, answer(true, Some((16, 2)), 1));
    assert_eq!(line.far(0, 2).result, answer(true, Some((16, 2)), 1));
    assert_eq!(line.time(1, 1, MUCH).result, answer(false, Some((0, 0)), 0));
    let block = line.block(&[0, 1], &[2, 0, 2], 24).result.unwrap();
    assert_eq!(block, Block::of([[(16, 2), (0, 0), (16, 2)], [(9, 1), (7, 1), (9, 1)]]));
    assert_eq!((&block.times[0][..5], &block.roads[1][..5], &block.times[2][..5]), (&[16, 0, 16, 0, 0][..], &[1, 1, 1, 0, 0][..], &[0; 5][..]));
    assert_eq!(line.block(&[0, 1], &[2, 0, 2], 23).result, Err(14));
    assert_eq!(line.block(&[0, 1], &[], 23).result, Err(17));
    assert_eq!(line.block(&[3], &[0; 13], 23).result, Err(12));
    let way = line.way(1, 1, MUCH, MUCH);
    assert_eq!((way.result, way.written), (Ok(1), vec![1, 0]));
    assert_eq!(line.audit(24).result, Ok(()));
}

#[test]
fn trials_on_fork() {
    let fork = asked(&networks::fork(), 6);
    assert_eq!(Network::of(networks::fork().bytes()).oracle(6).transit, [1, 2]);
    assert_eq!(fork.time(0, 4, MUCH).result, answer(true, Some((11, 3)), 4));
    assert_eq!(fork.time(0, 3, MUCH).result, answer(false, Some((10, 2)), 0));
    assert_eq!(fork.far(0, 3).result, Err(13));
    assert_eq!(fork.way(0, 4, MUCH, MUCH).written, [0, 0, 1, 0, 3, 0, 4, 0]);
    // Access places 1 and 2 on both sides: two entries of 8 bytes after the count.
    for u in [0, 4] {
        assert_eq!(fork.list(u).result.map(|p| p.size), Ok(18));
    }
    // The closed trial: with the road left out, and as it was until T-06.
    for questions in [asked(&networks::fork_without_4(), 6), Questions::old(networks::fork_closed().oracle(6))] {
        assert_eq!(questions.time(0, 4, MUCH).result, answer(true, None, 0));
        assert_eq!(questions.way(0, 4, MUCH, 0).result, Ok(0));
    }
    assert_eq!(Questions::of(networks::fork_closed().oracle(6)).time(0, 4, MUCH).result, Err(21));
}

#[test]
fn trials_on_the_others() {
    let one = Network::of(networks::one_place().bytes());
    assert_eq!(one.build(64, 8, 81).result, Ok(Built { length: 81, transit: 0 }));
    // Columns 0, 0, 1, 1: joined in pairs, only the road between the columns crosses a cell's edge. With g 2 nothing is far.
    let mut row = networks::four_in_a_row();
    row.roads = vec![(0, 1, 1), (1, 2, 1), (2, 3, 1)];
    assert_eq!(Network::of(row.bytes()).oracle(2).transit, [] as [usize; 0]);
    for (seconds, expected) in [(0, None), (1, None), (100_000, None), (100_001, Some(6))] {
        let mut plan = networks::line();
        plan.roads[1].2 = seconds;
        assert_eq!(Network::of(plan.bytes()).build(6, 24, MUCH).result.err(), expected);
    }
    for (x, expected) in [(-1_000_001, Some(4)), (-1_000_000, None), (1_000_000, None), (1_000_001, Some(4))] {
        let mut plan = networks::line();
        plan.places[0].0 = x;
        assert_eq!(Network::of(plan.bytes()).build(6, 24, MUCH).result.err(), expected);
    }
}

/// Each rule by a network or an oracle that breaks it, and the rules after it often as well.
#[test]
fn each_rule_by_an_example() {
    let bodies: Vec<Vec<u8>> = (1..=7).map(|k| reference::body(&asked(&networks::line(), 6).bytes, k).to_vec()).collect();
    let rule = |change: &dyn Fn(&mut Vec<Vec<u8>>)| {
        let mut changed = bodies.clone();
        change(&mut changed);
        Questions::of(reference::file(&changed)).audit(MUCH).result.err().unwrap_or(0)
    };
    assert_eq!(rule(&|_| {}), 0);
    assert_eq!(rule(&|b| b.truncate(6)), 1);
    assert_eq!(rule(&|b| b[0].truncate(23)), 3);
    assert_eq!(rule(&|b| b[0].clear()), 3);
    assert_eq!(rule(&|b| b[0][3] = 0x80), 4);
    assert_eq!(rule(&|b| b[1].truncate(15)), 5);
    assert_eq!(rule(&|b| b[1][0] = 3), 6);
    assert_eq!(rule(&|b| b[2] = vec![1]), 7);
    assert_eq!(rule(&|b| b[2] = vec![1, 0, 1, 0]), 7);
    assert_eq!(rule(&|b| b[2] = vec![2, 0]), 7);
    assert_eq!(rule(&|b| b[2] = vec![1, 0]), 21);
    assert_eq!(rule(&|b| (b[2], b[3]) = (vec![0, 0, 1, 0], vec![65, 0])), 21);
    assert_eq!(rule(&|b| (b[2], b[3]) = (vec![0, 0, 2, 0], vec![65, 0])), 7);
    assert_eq!(rule(&|b| b[3][0] = 65), 8);
    assert_eq!(rule(&|b| b[3].push(0)), 8);
    assert_eq!(rule(&|b| b[4][0] = 3), 9);
    assert_eq!(rule(&|b| b[5][0] = 13), 10);
    assert_eq!(rule(&|b| b[5][14] = 1), 10);
    assert_eq!(rule(&|b| b[6].push(0)), 11);
    assert_eq!(rule(&|b| b[6].truncate(4)), 11);
    assert_eq!(rule(&|b| b[6][3] = 0xff), 11);
    assert_eq!(rule(&|b| b[6][0] = 1), 16);
    assert_eq!(rule(&|b| b[6][4] = 1), 16);
    // An older edition.
    let mut bytes = reference::file(&bodies);
    bytes[0] = 1;
    assert_eq!(Questions::of(bytes).audit(MUCH).result, Err(1));
}

/// Seconds and roads of an entry and of the table: 'no walk' has both of its numbers, and each has its most.
#[test]
fn values_by_example() {
    let bodies: Vec<Vec<u8>> = (1..=7).map(|k| reference::body(&asked(&networks::line(), 6).bytes, k).to_vec()).collect();
    for (value, in_range) in [
        ((0, 0), true), ((409_500_000, 4_095), true), ((4_294_967_295, 65_535), true), ((0, 4_096), false), ((0, 65_535), false), ((409_500_001, 0), false),
        ((4_294_967_295, 0), false), ((4_294_967_295, 4_095), false), ((4_294_967_295, 65_534), false), ((4_294_967_294, 65_535), false),
    ] {
        // The entry of place 0 begins with its index at 14, that of place 2 at 26.
        for (body, at, rule) in [(5, 16, 10), (5, 28, 10), (6, 0, 11)] {
            let mut changed = bodies.clone();
            changed[body][at..at + 6].copy_from_slice(&reference::value_bytes(value));
            let expected = if in_range { None } else { Some(rule) };
            assert_eq!(Questions::of(reference::file(&changed)).list(0).result.err(), expected, "{value:?} in body {}", body + 1);
        }
    }
}

// ---- Least pairs and least walks ----

/// Floyd and Warshall's way to all least pairs.
fn all_pairs(map: &Map) -> Vec<Vec<Option<Pair>>> {
    let n = map.size();
    let mut d = vec![vec![None; n]; n];
    (0..n).for_each(|u| d[u][u] = Some(Pair::ZERO));
    let lower = |known: &mut Option<Pair>, pair: Pair| *known = Some(known.map_or(pair, |known| known.min(pair)));
    for (from, to, seconds) in map.steps() {
        lower(&mut d[from][to], Pair::road(seconds));
    }
    for k in 0..n {
        for i in 0..n {
            for j in 0..n {
                if let (Some(a), Some(b)) = (d[i][k], d[k][j]) {
                    lower(&mut d[i][j], a + b);
                }
            }
        }
    }
    d
}

/// The least pairs from s over all walks of up to so many roads, places and roads that come again included: of those with just k roads the least seconds,
/// for each k.
fn by_number_of_roads(map: &Map, s: usize, most: u64) -> Vec<Option<Pair>> {
    let mut seconds = vec![None; map.size()];
    seconds[s] = Some(0);
    let mut least = vec![None; map.size()];
    for roads in 0..=most {
        for (known, &of_these) in least.iter_mut().zip(&seconds) {
            let pair = of_these.map(|seconds| Pair { seconds, roads });
            *known = [*known, pair].into_iter().flatten().min();
        }
        let mut longer: Vec<Option<u64>> = vec![None; map.size()];
        for (from, to, more) in map.steps() {
            if let Some(before) = seconds[from] {
                longer[to] = Some(longer[to].map_or(before + more, |known| known.min(before + more)));
            }
        }
        seconds = longer;
    }
    least
}

/// All walks from the last of `walk` to t that come by no place twice, each with its pair.
fn all_walks(map: &Map, walk: &mut Vec<usize>, pair: Pair, t: usize, found: &mut Vec<(Pair, Vec<usize>)>) {
    let u = *walk.last().unwrap();
    if u == t {
        found.push((pair, walk.clone()));
        return;
    }
    for (from, to, seconds) in map.steps() {
        if from == u && !walk.contains(&to) {
            walk.push(to);
            all_walks(map, walk, pair + Pair::road(seconds), t, found);
            walk.pop();
        }
    }
}

#[test]
fn three_ways_to_least_pairs() {
    let mut zero = 0;
    for seed in 0..600 {
        let network = Network::of(networks::network(&mut Random(seed)).bytes());
        let map = network.map().unwrap();
        for (s, row) in all_pairs(map).into_iter().enumerate() {
            assert_eq!(by_number_of_roads(map, s, 2 * map.size() as u64), row, "seed {seed}, from {s}");
            for (t, pair) in row.into_iter().enumerate() {
                assert_eq!(map.d(s, t), pair, "seed {seed}, {s} to {t}");
                zero += pair.is_some_and(|pair| pair.seconds == 0 && pair.roads > 1) as u32;
            }
        }
    }
    assert!(zero > 1_000, "only {zero} pairs joined in 0 seconds by several roads");
}

/// Each road counts, so a least walk comes by no place twice: the first of all least walks is among `all_walks`.
#[test]
fn the_way_is_the_first_least_walk() {
    let (mut several, mut fewer) = (0, 0);
    for seed in 1_000..2_000 {
        let plan = networks::network(&mut Random(seed));
        if plan.places.len() > 8 || plan.roads.len() > 12 {
            continue;
        }
        let network = Network::of(plan.bytes());
        let map = network.map().unwrap();
        for s in 0..map.size() {
            for t in 0..map.size() {
                let mut walks = Vec::new();
                all_walks(map, &mut vec![s], Pair::ZERO, t, &mut walks);
                let least = walks.iter().map(|w| w.0).min();
                let seconds = least.map(|pair| pair.seconds);
                // Those that are as quick and have more roads are no least walks.
                fewer += walks.iter().any(|w| Some(w.0.seconds) == seconds && Some(w.0) != least) as u32;
                let mut ways: Vec<Vec<usize>> = walks.into_iter().filter(|w| Some(w.0) == least).map(|w| w.1).collect();
                ways.sort();
                ways.dedup();
                several += (ways.len() > 1) as u32;
                let way = map.way(s, t);
                assert_eq!(map.d(s, t), least, "seed {seed}, {s} to {t}");
                assert_eq!(way, ways.first().cloned().unwrap_or_default(), "seed {seed}, {s} to {t}");
                assert_eq!(least.map(|pair| pair.roads as usize + 1).unwrap_or(0), way.len(), "seed {seed}, {s} to {t}");
            }
        }
    }
    println!("several least walks {several}, walks as quick with more roads {fewer}");
    assert!(several > 300 && fewer > 300, "only {several} pairs with several least walks, {fewer} with others as quick");
}

// ---- Built oracles ----

/// On a built oracle every answer is the least pair: what the method promises, and what a wrong choice of places would break.
/// The host's plain building, which goes by searches and marks, gives the same bytes.
#[test]
fn built_oracles_answer_least_pairs() {
    let (mut far, mut local, mut far_none, mut entries, mut tried) = (0, 0, 0, 0, 0);
    for seed in 2_000..3_200 {
        let mut random = Random(seed);
        let plan = networks::network(&mut random);
        let network = Network::of(plan.bytes());
        let g = networks::grid(&mut random);
        let oracle = network.oracle(g);
        assert_eq!(oracle.bytes, plain::build(&network.bytes, g), "seed {seed}, g {g}");
        let questions = Questions::of(oracle.bytes.clone());
        assert_eq!(questions.audit(MUCH).result, Ok(()), "seed {seed}, g {g}");
        let map = network.map().unwrap();
        let n = map.size() as u32;
        for s in 0..n {
            entries += (questions.list(s).result.unwrap().size > 2) as u32;
            for t in 0..n {
                let answer = questions.time(s, t, MUCH).result.unwrap();
                assert_eq!(answer.time, map.d(s as usize, t as usize), "seed {seed}, g {g}, {s} to {t}");
                far += answer.far as u32;
                local += !answer.far as u32;
                far_none += (answer.far && answer.time.is_none()) as u32;
                tried += (answer.pairs > 1) as u32;
            }
        }
    }
    // The networks are such that all of this is met often.
    println!("far {far}, local {local}, far without a walk {far_none}, lists with entries {entries}, several pairs tried {tried}");
    assert!(far > 30_000 && local > 30_000 && far_none > 5_000 && entries > 5_000 && tried > 15_000);
}
