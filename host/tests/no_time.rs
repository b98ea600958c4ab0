//! Roads of no time, and walks as quick as others that have more roads: every call on such networks against the reference, in what it hands back and in every
//! lent word and byte; and what a way is beside its time. `JUKESOGBI_NETWORKS=10000 cargo test --release --test no_time` tries more of them.

mod common;

use common::networks::{self, pick, Plan};
use common::no_time::{self, Sort};
use common::program::oracle;
use common::random_sheets::lines;
use common::reference::sheets::sheet;
use common::reference::wages::legs;
use common::reference::{self, Answer, Built, Map, Outcome, Pair, SIDE};
use common::sheets::SheetCase;
use common::wages::result_size;
use common::{check_audit, check_build, networks_to_try, NetworkCase, Opened, OracleCase};
use jukesogbi::sample::{self, Random};
use jukesogbi::{files, plain};
use std::collections::BTreeSet;

/// How often something was met.
#[derive(Debug, Default)]
struct Met {
    pairs: u64,
    far: u64,
    none: u64,
    /// Times of 0 seconds between different places, by one road and by more.
    no_time: u64,
    no_time_by_several: u64,
    /// Pairs with a walk as quick that has more roads, and where its first step has the lower number.
    quick_with_more: u64,
    next_by_seconds_alone: u64,
    under_kept: u64,
    under_changed: u64,
    more_roads_under: u64,
}

/// A way that is the time's: from s to t by roads that are there, with no place twice, as many roads as the time has, and its seconds.
fn check_way(map: &Map, written: &[u8], (s, t): (u32, u32), time: Option<Pair>, at: &dyn Fn() -> String) {
    let places: Vec<usize> = written.chunks(2).map(|place| reference::number_16(place, 0) as usize).collect();
    let Some(time) = time else { return assert!(places.is_empty(), "{}", at()) };
    assert_eq!((places.first(), places.last()), (Some(&(s as usize)), Some(&(t as usize))), "{}", at());
    assert_eq!(places.iter().collect::<BTreeSet<_>>().len(), places.len(), "{}: a place twice", at());
    assert_eq!(places.len() as u64, time.roads + 1, "{}", at());
    let step = |w: &[usize]| map.steps().filter(|&(from, to, _)| (from, to) == (w[0], w[1])).map(|road| road.2).min().expect("a road is there");
    assert_eq!(places.windows(2).map(step).sum::<u64>(), time.seconds, "{}", at());
}

/// What the next place by seconds alone would be, which could circle: the lowest-numbered neighbour that leaves no more seconds than it should.
fn next_by_seconds(map: &Map, s: usize, t: usize) -> Option<usize> {
    let left = map.d(s, t)?.seconds;
    map.steps().filter(|&(from, to, seconds)| from == s && map.d(to, t).is_some_and(|rest| seconds + rest.seconds == left)).map(|(_, to, _)| to).min()
}

impl Met {
    fn count(&mut self, map: &Map, (s, t): (u32, u32), answer: &Answer, way: &[u8]) {
        self.pairs += 1;
        self.far += answer.far as u64;
        self.none += answer.time.is_none() as u64;
        let Some(time) = answer.time else { return };
        self.no_time += (time.seconds == 0 && s != t) as u64;
        self.no_time_by_several += (time.seconds == 0 && time.roads > 1) as u64;
        let on_a_quick_walk = |v: usize| {
            let both = map.d(s as usize, v).zip(map.d(v, t as usize));
            both.is_some_and(|(to, on)| to.seconds + on.seconds == time.seconds && to.roads + on.roads > time.roads)
        };
        self.quick_with_more += (0..map.size()).any(on_a_quick_walk) as u64;
        if s != t {
            self.next_by_seconds_alone += (next_by_seconds(map, s as usize, t as usize) != Some(reference::number_16(way, 2) as usize)) as u64;
        }
    }
}

/// Every pair by every question, by calls that check and over one opening, and the list of each place.
fn all_pairs(case: &OracleCase, met: &mut Met) {
    let (n, words, map) = (case.reference.size() as u32, case.words(), case.reference.map().unwrap());
    let mut opened = case.open(words).unwrap();
    for s in 0..n {
        assert!(case.list(s).result.is_ok());
        for t in 0..n {
            let answer = opened.time(s, t).unwrap();
            assert_eq!(answer.time, map.d(s as usize, t as usize), "{}: {s} to {t}", (case.input.name)());
            assert_eq!(opened.far(s, t), if answer.far { Ok(answer) } else { Err(13) });
            let way = case.way(s, t, words, 2 * n as usize);
            assert_eq!(opened.way(s, t, 2 * n as usize), way.result);
            check_way(map, &way.written, (s, t), answer.time, &|| format!("{}: way {s} to {t}", (case.input.name)()));
            met.count(map, (s, t), &answer, &way.written);
        }
    }
}

/// A block of random names, and legs among all places.
fn blocks_and_wages(opened: &mut Opened, n: usize, random: &mut Random) {
    let mut names = || (0..1 + random.below(SIDE as u64)).map(|_| random.below(n as u64) as u32).collect::<Vec<u32>>();
    let (starts, ends) = (names(), names());
    assert!(opened.block(&starts, &ends).is_ok());
    let pairs: Vec<(u32, u32)> = starts.iter().flat_map(|&s| ends.iter().map(move |&t| (s, t))).collect();
    assert_eq!(opened.wages(&legs(&pairs), result_size(pairs.len())), Ok(result_size(pairs.len())));
}

/// Times and ways under sheets. A least walk over the roads as a sheet leaves them has no place twice either.
fn under_sheets(case: &OracleCase, plan: &Plan, random: &mut Random, met: &mut Met) {
    let (n, mut opened) = (case.reference.size() as u32, case.open(case.words()).unwrap());
    for _ in 0..2 {
        let under = SheetCase::new(case, || "a sheet".to_string(), sheet(&lines(random, plan)));
        let Some(map) = under.reference.map() else { continue };
        for (s, t) in (0..n).flat_map(|s| (0..n).map(move |t| (s, t))) {
            let (old, new) = (case.reference.time(s, t, case.words()).result.unwrap(), opened.time_under(&under, s, t).unwrap());
            assert_eq!(new.time, map.d(s as usize, t as usize), "{}: {s} to {t}", (case.input.name)());
            assert!(opened.way_under(&under, s, t, 2 * n as usize).is_ok());
            let way = under.reference.way(s, t, case.words(), 2 * n as usize);
            check_way(map, &way.written, (s, t), new.time, &|| format!("{}, under a sheet: way {s} to {t}", (case.input.name)()));
            met.under_kept += (old.far && new == old) as u64;
            met.under_changed += (new.time != old.time) as u64;
            met.more_roads_under += (new.seconds() == old.seconds() && new.time > old.time) as u64;
        }
    }
}

/// Building with what it needs and one less of each, the audit, and every question.
fn try_plan(name: String, plan: &Plan, g: u32, random: &mut Random, met: &mut Met) {
    let text = name.clone();
    let network = NetworkCase::new(move || text.clone(), plan.bytes());
    let (words, bytes) = (network.words(), network.reference.oracle(g).bytes.clone());
    assert!(network.build(g, words, bytes.len()).result.is_ok());
    assert_eq!((network.build(g, words - 1, bytes.len()).result, network.build(g, words, bytes.len() - 1).result), (Err(14), Err(15)));
    assert_eq!(bytes, plain::build(&plan.bytes(), g), "{name}");
    let case = OracleCase::new(move || format!("{name} under {g}"), bytes);
    assert_eq!(case.audit(words).result, Ok(()));
    all_pairs(&case, met);
    blocks_and_wages(&mut case.open(words).unwrap(), plan.places.len(), random);
    under_sheets(&case, plan, random, met);
}

// ---- Random networks ----

const NETWORKS: u64 = 120;

fn try_sort(sort: Sort) -> Met {
    let mut met = Met::default();
    for seed in 0..networks_to_try(NETWORKS) {
        let mut random = Random(11_000_000 + seed);
        let plan = no_time::network(&mut random, sort);
        for g in [networks::grid(&mut random), pick(&mut random, &[1, 6, 64])] {
            try_plan(format!("{sort:?} of seed {seed}"), &plan, g, &mut random, &mut met);
        }
    }
    println!("{sort:?}: {met:?}");
    let all = [met.far, met.quick_with_more, met.next_by_seconds_alone, met.under_kept, met.under_changed, met.more_roads_under];
    assert!(networks_to_try(NETWORKS) < NETWORKS || all.iter().all(|&count| count > 100), "{sort:?}: {met:?}");
    met
}

#[test]
fn all_roads_of_no_time() {
    let met = try_sort(Sort::All);
    // Whatever has a walk has one of no time.
    assert!(met.no_time + met.none > met.pairs / 2 && met.no_time_by_several > 1_000, "{met:?}");
}

#[test]
fn most_roads_of_no_time() {
    assert!(try_sort(Sort::Most).no_time_by_several > 1_000);
}

#[test]
fn rings_of_no_time() {
    assert!(try_sort(Sort::Rings).no_time_by_several > 1_000);
}

#[test]
fn roads_beside_others_of_no_time() {
    assert!(try_sort(Sort::Parallel).no_time > 1_000);
}

#[test]
fn junctions_of_two_places() {
    assert!(try_sort(Sort::Junctions).no_time > 1_000);
}

#[test]
fn ties_in_seconds() {
    assert!(try_sort(Sort::Ties).quick_with_more > 1_000);
}

// ---- Few places: all networks ----

/// Up to so many roads of 0 to 2 seconds between n places, in every way.
fn every_network(n: u16, most: usize) -> Vec<Vec<(u16, u16, u32)>> {
    let ends = (0..n).flat_map(|u| (u + 1..n).map(move |v| (u, v)));
    let roads: Vec<(u16, u16, u32)> = ends.flat_map(|(u, v)| (0..3).map(move |seconds| (u, v, seconds))).collect();
    let mut all = vec![Vec::new()];
    let mut from = 0;
    for _ in 0..most {
        let to = all.len();
        for k in from..to {
            for &road in &roads {
                let longer = [&all[k][..], &[road]].concat();
                all.push(longer);
            }
        }
        from = to;
    }
    all
}

/// Each in one cell, and with a far pair.
#[test]
fn every_network_of_few_places() {
    let mut met = Met::default();
    for (n, most) in [(1, 0), (2, 3), (3, 3)] {
        for (k, roads) in every_network(n, most).into_iter().enumerate() {
            let plan = Plan { places: (0..n as i32).map(|u| (30 * u, 0)).collect(), roads };
            let mut random = Random(k as u64);
            for g in [1, 6, 64] {
                try_plan(format!("network {k} of {n} places"), &plan, g, &mut random, &mut met);
            }
        }
    }
    println!("{met:?}");
}

// ---- Many places ----

/// Against plain Rust's bytes, and times and ways of some pairs against the reference.
fn try_sample(n: usize, g: u32, questions: usize) {
    let net = sample::junctions(n, n as u64 + 1);
    let (network, bytes) = (net.to_bytes(), plain::build(&net.to_bytes(), g));
    let case = NetworkCase::new(move || format!("sample of {n} places with junctions"), network);
    let words = case.words();
    let values = Built { length: bytes.len(), transit: files::transit_nodes(&bytes).len() };
    check_build(&case.input, g, words, bytes.len(), &Outcome { result: Ok(values), zeroed: words, written: bytes.clone() });
    let asked = OracleCase::new(move || format!("sample of {n} places with junctions under {g}"), bytes);
    check_audit(&asked.input, words, &Outcome { result: Ok(()), zeroed: words, written: Vec::new() });
    let (mut opened, mut random, map) = (asked.open(words).unwrap(), Random(n as u64), asked.reference.map().unwrap());
    for _ in 0..questions {
        let (s, t) = (random.below(n as u64) as u32, random.below(n as u64) as u32);
        let answer = opened.time(s, t).unwrap();
        assert_eq!(answer.time, map.d(s as usize, t as usize), "{s} to {t}");
        assert_eq!(opened.way(s, t, 2 * n).map(|places| places as u64), Ok(answer.time.unwrap().roads + 1), "{s} to {t}");
    }
    blocks_and_wages(&mut opened, n, &mut random);
}

#[test]
fn samples_with_junctions() {
    for n in [2, 3, 5, 31, 32, 33, 63, 64, 65, 100, 257] {
        for g in [1, 6, 16, 64] {
            try_sample(n, g, 40);
        }
    }
    try_sample(1_024, 32, 40);
}

#[test]
fn the_most_places_with_junctions() {
    try_sample(4_096, 16, 6);
}

// ---- The trials' networks ----

#[test]
fn the_trials() {
    for (name, plan) in [("junction", networks::junction()), ("ring", networks::ring()), ("tie", networks::tie())] {
        let mut random = Random(1);
        for g in 1..=64 {
            try_plan(name.to_string(), &plan, g, &mut random, &mut Met::default());
        }
        assert_eq!(oracle(&plan, 6)[0], 2);
    }
}
