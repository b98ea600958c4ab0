//! Two oracles side by side: every count and the largest rise, against the reference's answers for all pairs. And what document 02's T-08 proves of one
//! slower road, under any two grids.

mod common;

use common::built::built;
use common::networks::{self, between, pick, Plan};
use common::networks_to_try;
use common::no_time::{self, Sort};
use common::reference::{Questions, WORDS};
use common::tables::Tables;
use jukesogbi::compare::{compare, Comparison, Rise};
use jukesogbi::oracle::Oracle;
use jukesogbi::sample::Random;

fn compared(first: &[u8], second: &[u8]) -> Comparison {
    compare(&Oracle::open(first).unwrap(), &Oracle::open(second).unwrap()).expect("they have as many places")
}

/// A pair of places with its seconds in the first oracle and in the second.
type Seconds = ((u32, u32), Option<u64>, Option<u64>);

/// By the reference's single answers, all pairs by start and then by end.
fn answers(first: &[u8], second: &[u8]) -> Vec<Seconds> {
    let (first, second) = (Questions::of(first.to_vec()), Questions::of(second.to_vec()));
    let n = first.size() as u32;
    let seconds = |o: &Questions, s, t| o.time(s, t, WORDS * n as usize).result.unwrap().time.map(|pair| pair.seconds);
    (0..n).flat_map(|s| (0..n).map(move |t| (s, t))).map(|(s, t)| ((s, t), seconds(&first, s, t), seconds(&second, s, t))).collect()
}

fn expected(all: &[Seconds]) -> Comparison {
    let count = |is: &dyn Fn(Option<u64>, Option<u64>) -> bool| all.iter().filter(|&&(_, before, after)| is(before, after)).count() as u64;
    let both = |is: fn(u64, u64) -> bool| count(&|before, after| before.zip(after).is_some_and(|(before, after)| is(before, after)));
    let rise = |&(_, before, after): &Seconds| after?.checked_sub(before?).filter(|&rise| rise > 0);
    let most = all.iter().filter_map(rise).max();
    let first = all.iter().find(|pair| most.is_some() && rise(pair) == most);
    Comparison {
        slower: both(|before, after| after > before),
        as_quick: both(|before, after| after == before),
        quicker: both(|before, after| after < before),
        newly_none: count(&|before, after| before.is_some() && after.is_none()),
        newly_reachable: count(&|before, after| before.is_none() && after.is_some()),
        none: count(&|before, after| before.is_none() && after.is_none()),
        largest: first.map(|&(pair, ..)| Rise { seconds: most.unwrap() as u32, pair }),
    }
}

// ---- T-08 ----

/// The network with k more seconds on road j.
fn raised(plan: &Plan, j: usize, k: u32) -> Plan {
    let mut plan = plan.clone();
    plan.roads[j].2 += k;
    plan
}

/// Seconds to add to a road, with which it takes 100,000 at the most.
fn added(random: &mut Random, seconds: u32) -> u32 {
    let most = 100_000 - seconds;
    let any = random.below(most as u64 + 1) as u32;
    pick(random, &[0, 1, 1, 2, 3, 5, 40, 1_000, any, most]).min(most)
}

/// How often something was met.
#[derive(Debug, Default)]
struct Met {
    roads: u64,
    of_no_time: u64,
    k_of_0: u64,
    grids_differ: u64,
    /// The largest rise is k itself, less, or there is none though k is not 0.
    rose_by_k: u64,
    rose_by_less: u64,
    stayed: u64,
    with_none: u64,
}

/// "If one road's seconds rise by k and stay within 100,000, then no time between any two places falls, none rises by more than k, and 'none' stays 'none',
/// for the oracles built from both networks under any two grids."
fn one_slower_road(random: &mut Random, plan: &Plan, met: &mut Met) {
    let j = random.below(plan.roads.len() as u64) as usize;
    let k = added(random, plan.roads[j].2);
    let grids = (networks::grid(random), networks::grid(random));
    let (first, second) = (built(&plan.bytes(), grids.0), built(&raised(plan, j, k).bytes(), grids.1));
    let (all, found) = (answers(&first, &second), compared(&first, &second));
    let at = || format!("road {j} of {plan:?}, {k} more, under {grids:?}");
    for &((s, t), before, after) in &all {
        assert_eq!(before.is_some(), after.is_some(), "{}: from {s} to {t}", at());
        if let (Some(before), Some(after)) = (before, after) {
            assert!((before..=before + k as u64).contains(&after), "{}: from {s} to {t} {after} for {before}", at());
        }
    }
    assert_eq!(found, expected(&all), "{}", at());
    assert_eq!((found.quicker, found.newly_none, found.newly_reachable), (0, 0, 0), "{}", at());
    let most = found.largest.map_or(0, |rise| rise.seconds);
    assert!(most <= k, "{}", at());
    met.roads += 1;
    met.of_no_time += (plan.roads[j].2 == 0 && k > 0) as u64;
    met.k_of_0 += (k == 0) as u64;
    met.grids_differ += (grids.0 != grids.1) as u64;
    met.rose_by_k += (k > 0 && most == k) as u64;
    met.rose_by_less += (0 < most && most < k) as u64;
    met.stayed += (k > 0 && most == 0) as u64;
    met.with_none += (found.none > 0) as u64;
}

#[test]
fn one_slower_road_of_random_networks() {
    let (mut random, mut met) = (Random(8), Met::default());
    for _ in 0..networks_to_try(1_500) {
        let plan = networks::network(&mut random);
        if !plan.roads.is_empty() {
            one_slower_road(&mut random, &plan, &mut met);
        }
    }
    let Met { roads, of_no_time, k_of_0, grids_differ, rose_by_k, rose_by_less, stayed, with_none } = met;
    assert!(roads > 1_000 && of_no_time > 100 && k_of_0 > 100 && grids_differ > 900, "{met:?}");
    assert!(rose_by_k > 200 && rose_by_less > 100 && stayed > 50 && with_none > 100, "{met:?}");
}

/// Where many roads are of no time, and where many walks are as quick as others.
#[test]
fn one_slower_road_of_networks_with_roads_of_no_time() {
    let (mut random, mut met) = (Random(80), Met::default());
    for sort in [Sort::All, Sort::Most, Sort::Rings, Sort::Parallel, Sort::Junctions, Sort::Ties] {
        for _ in 0..networks_to_try(100) {
            let plan = no_time::network(&mut random, sort);
            if !plan.roads.is_empty() {
                one_slower_road(&mut random, &plan, &mut met);
            }
        }
    }
    assert!(met.of_no_time > 150 && met.rose_by_k > 50 && met.rose_by_less > 30 && met.stayed > 100, "{met:?}");
}

/// Each road of the trials' networks by itself, by every k up to 12 and to the most, under grids that make pairs far and local.
#[test]
fn each_road_of_the_trials() {
    use networks::{fork, fork_without_4, junction, line, ring, tie, two_lines};
    for plan in [line(), fork(), fork_without_4(), two_lines(), junction(), ring(), tie()] {
        let before = [1, 6, 64].map(|g| built(&plan.bytes(), g));
        for (j, road) in plan.roads.iter().enumerate() {
            let most = 100_000 - road.2;
            for k in (0..=12).chain([most]).filter(|&k| k <= most) {
                for (g, first) in [6, 64, 1].into_iter().zip(&before) {
                    let second = built(&raised(&plan, j, k).bytes(), g);
                    let found = compared(first, &second);
                    assert_eq!(found, expected(&answers(first, &second)), "road {j} of {plan:?}, {k} more, under {g}");
                    assert_eq!((found.quicker, found.newly_none, found.newly_reachable), (0, 0, 0));
                    assert!(found.largest.is_none_or(|rise| rise.seconds <= k));
                }
            }
        }
    }
}

// ---- Any two oracles ----

/// Another network of the same number of places: some roads are gone, new or otherwise long, and perhaps all places lie elsewhere.
fn changed(random: &mut Random, plan: &Plan) -> Plan {
    let n = plan.places.len() as u64;
    let mut other = plan.clone();
    other.roads.retain(|_| !random.once_in(6));
    other.roads.iter_mut().for_each(|road| road.2 = if random.once_in(3) { random.below(1_000) as u32 } else { road.2 });
    for _ in 0..random.below(3) {
        let (a, b) = (random.below(n) as u16, random.below(n) as u16);
        if a != b {
            other.roads.push((a, b, random.below(20) as u32));
        }
    }
    if random.once_in(3) {
        random.shuffle(&mut other.places);
    }
    other
}

#[test]
fn networks_that_differ_at_random() {
    let (mut random, mut sum) = (Random(800), Comparison::default());
    for _ in 0..networks_to_try(800) {
        let plan = networks::network(&mut random);
        let first = built(&plan.bytes(), networks::grid(&mut random));
        let second = built(&changed(&mut random, &plan).bytes(), networks::grid(&mut random));
        let found = compared(&first, &second);
        assert_eq!(found, expected(&answers(&first, &second)), "{plan:?}");
        assert_eq!(found.pairs(), (plan.places.len() * plan.places.len()) as u64);
        // The other way round, slower is quicker.
        let back = compared(&second, &first);
        assert_eq!((back.slower, back.quicker, back.as_quick, back.none), (found.quicker, found.slower, found.as_quick, found.none));
        assert_eq!((back.newly_none, back.newly_reachable), (found.newly_reachable, found.newly_none));
        sum.slower += found.slower;
        sum.as_quick += found.as_quick;
        sum.quicker += found.quicker;
        sum.newly_none += found.newly_none;
        sum.newly_reachable += found.newly_reachable;
        sum.none += found.none;
    }
    let counts = [sum.slower, sum.as_quick, sum.quicker, sum.newly_none, sum.newly_reachable, sum.none];
    assert!(counts.into_iter().all(|count| count > 1_000), "{sum:?}");
}

/// Whose lists and tables were never worked out, so that there and back may differ, and sums come near to 32 bits.
#[test]
fn oracles_that_were_never_built() {
    let (mut random, mut asymmetric) = (Random(88), 0);
    for _ in 0..networks_to_try(300) {
        let plan = networks::network(&mut random);
        let n = plan.places.len();
        let [first, second] = [(); 2].map(|()| Tables::random(&mut random, n).oracle(&plan, between(&mut random, 5, 64) as u32));
        let (all, found) = (answers(&first, &second), compared(&first, &second));
        assert_eq!(found, expected(&all), "{plan:?}");
        asymmetric += all.iter().filter(|&&((s, t), ..)| all[s as usize * n + t as usize].1 != all[t as usize * n + s as usize].1).count();
    }
    assert!(asymmetric > 1_000, "{asymmetric}");
}

#[test]
fn an_oracle_and_itself() {
    for plan in [networks::one_place(), networks::fork(), networks::two_lines()] {
        let (o, n) = (built(&plan.bytes(), 8), plan.places.len() as u64);
        let found = compared(&o, &o);
        assert_eq!((found.as_quick + found.none, found.largest), (n * n, None));
    }
}

#[test]
fn other_numbers_of_places() {
    let [line, fork, one] = [networks::line(), networks::fork(), networks::one_place()].map(|plan| built(&plan.bytes(), 6));
    for (first, second) in [(&line, &fork), (&fork, &line), (&one, &line), (&line, &one)] {
        assert_eq!(compare(&Oracle::open(first).unwrap(), &Oracle::open(second).unwrap()), None);
    }
}

// ---- Blocks of twelve ----

/// A chain, whose road j takes k more: the pairs across it rise by k, and the first of them is from 0 to its other end.
#[test]
fn numbers_of_places_about_twelve() {
    for n in [2, 11, 12, 13, 14, 23, 24, 25, 36, 37, 61] {
        let plan = Plan { places: (0..n as i32).map(|x| (10 * x, 0)).collect(), roads: (0..n - 1).map(|u| (u, u + 1, 10)).collect() };
        for j in [0, (n - 2) / 2, n - 2] {
            let found = compared(&built(&plan.bytes(), 9), &built(&raised(&plan, j as usize, 7).bytes(), 20));
            let (n, slower) = (n as u64, 2 * (j as u64 + 1) * (n - 1 - j) as u64);
            let largest = Some(Rise { seconds: 7, pair: (0, j as u32 + 1) });
            assert_eq!(found, Comparison { slower, as_quick: n * n - slower, largest, ..Comparison::default() }, "{n} places, road {j}");
        }
    }
}

/// Of pairs that rise alike the first by start is told, though it stands in a block that comes later.
#[test]
fn the_first_pair() {
    let places = (0..40).map(|x| (x, 0)).collect();
    let plan = Plan { places, roads: vec![(11, 13, 5), (25, 5, 5), (30, 4, 5)] };
    let mut slower = plan.clone();
    slower.roads.iter_mut().zip([7, 7, 6]).for_each(|(road, more)| road.2 += more);
    let (first, second) = (built(&plan.bytes(), 1), built(&slower.bytes(), 1));
    let found = compared(&first, &second);
    assert_eq!((found.slower, found.largest), (6, Some(Rise { seconds: 7, pair: (5, 25) })));
    assert_eq!(found, expected(&answers(&first, &second)));
}

/// 512 chains of 8 places each; the first road of one of them takes longer.
#[test]
fn the_most_places() {
    let plan = networks::chains();
    let found = compared(&built(&plan.bytes(), 64), &built(&raised(&plan, 3, 90_000).bytes(), 64));
    let (reached, all) = (512 * 64, 4096 * 4096);
    let largest = Some(Rise { seconds: 90_000, pair: (3, 515) });
    assert_eq!(found, Comparison { slower: 14, as_quick: reached - 14, none: all - reached, largest, ..Comparison::default() });
}
