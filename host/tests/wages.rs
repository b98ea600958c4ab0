//! Wages of legs at random, over built oracles, over well-shaped ones that were never built and over damaged ones: by the call that checks the oracle and
//! over an opened one, in what they hand back and in every lent word and byte; and beside the time of each leg.

mod common;

use common::networks::{self, pick};
use common::program::oracle;
use common::reference::wages::{legs, whole_legs};
use common::tables::Tables;
use common::wages::{count, random_legs, result_size};
use common::{networks_to_try, reference, OracleCase};
use jukesogbi::oracle::Oracle;
use jukesogbi::sample::Random;
use jukesogbi::wages::Wages;
use jukesogbi::{core, files};

/// How often something was met.
#[derive(Debug, Default)]
struct Met {
    far: u64,
    far_none: u64,
    local: u64,
    local_none: u64,
    same_place: u64,
    leg_again: u64,
    given: [u64; 18],
}

impl Met {
    fn count(&mut self, result: Result<usize, u32>) {
        self.given[result.err().unwrap_or(0) as usize] += 1;
    }

    fn count_legs(&mut self, case: &OracleCase, pairs: &[(u32, u32)]) {
        for (i, &(s, t)) in pairs.iter().enumerate() {
            let answer = case.reference.time(s, t, case.words()).result.unwrap();
            let kind = match (answer.far, answer.time) {
                (true, Some(_)) => &mut self.far,
                (true, None) => &mut self.far_none,
                (false, Some(_)) => &mut self.local,
                (false, None) => &mut self.local_none,
            };
            *kind += 1;
            self.same_place += (s == t) as u64;
            self.leg_again += pairs[..i].contains(&(s, t)) as u64;
        }
    }

    fn assert_met(&self, networks: u64, rules: &[usize]) {
        println!("{self:?}");
        if networks_to_try(networks) >= networks {
            let often = [self.far, self.far_none, self.local, self.local_none, self.same_place, self.leg_again];
            assert!(often.iter().all(|&count| count > 1_000) && rules.iter().all(|&rule| self.given[rule] > 20), "{self:?}");
        }
    }
}

/// Legs that are right but for now and then a place that is none, a part of a leg, or too many.
fn entered(random: &mut Random, n: usize) -> Vec<u8> {
    let size = count(random);
    let mut pairs = random_legs(random, n, size);
    if !pairs.is_empty() && random.once_in(6) {
        let (at, number) = (random.below(pairs.len() as u64) as usize, pick(random, &[n as u32, n as u32 + 1, 4_096, 65_535]));
        if random.once_in(2) { pairs[at].0 = number } else { pairs[at].1 = number }
    }
    let part = if random.once_in(6) { random.below(4) as usize } else { 0 };
    [legs(&pairs), (0..part).map(|_| random.below(256) as u8).collect()].concat()
}

/// Several sheets over one oracle, with words and room about what is needed, and other questions between them.
fn try_sheets(case: &OracleCase, random: &mut Random, met: &mut Met) {
    let (n, words) = (case.reference.size(), case.words());
    let mut opened = case.open(words + pick(random, &[0, 1, 30])).unwrap();
    for _ in 0..6 {
        let legs = entered(random, n);
        let (needed, more) = (result_size(legs.len() / 4), 1 + random.below(30) as usize);
        let less = random.below(needed as u64) as usize;
        let room = pick(random, &[needed, needed, needed + more, needed - 1, less]);
        let result = opened.wages(&legs, room);
        met.count(result);
        if result.is_ok() {
            met.count_legs(case, &whole_legs(&legs));
        }
        met.count(case.wages(&legs, pick(random, &[0, words - 1, words, words + more]), room).result);
        let (s, t) = (random.below(n as u64) as u32, random.below(n as u64) as u32);
        assert!(opened.time(s, t).is_ok() && opened.way(s, t, 2 * n).is_ok() && opened.block(&[s, t], &[t]).is_ok());
    }
}

#[test]
fn over_built_oracles() {
    let (mut met, networks) = (Met::default(), 500);
    for seed in 0..networks_to_try(networks) {
        let mut random = Random(7_000_000 + seed);
        let plan = networks::network(&mut random);
        let g = networks::grid(&mut random);
        let case = OracleCase::new(move || format!("oracle of seed {seed}"), oracle(&plan, g));
        try_sheets(&case, &mut random, &mut met);
    }
    met.assert_met(networks, &[0, 12, 14, 15, 17]);
}

/// Times are what lists and table hold.
#[test]
fn over_oracles_never_built() {
    let (mut met, networks) = (Met::default(), 500);
    for seed in 0..networks_to_try(networks) {
        let mut random = Random(8_000_000 + seed);
        let plan = networks::network(&mut random);
        let g = networks::grid(&mut random);
        let bytes = Tables::random(&mut random, plan.places.len()).oracle(&plan, g);
        try_sheets(&OracleCase::new(move || format!("oracle never built, of seed {seed}"), bytes), &mut random, &mut met);
    }
    met.assert_met(networks, &[0, 12, 14, 15, 17]);
}

/// Some bytes changed, and now and then some cut off or put behind.
fn damage(random: &mut Random, bytes: &mut Vec<u8>) {
    for _ in 0..1 + random.below(3) {
        if !bytes.is_empty() {
            let at = random.below(bytes.len() as u64) as usize;
            bytes[at] = pick(random, &[0, 1, 255, bytes[at] ^ 1, bytes[at].wrapping_add(1), bytes[at].wrapping_sub(1)]);
        }
    }
    match random.below(6) {
        0 => bytes.truncate(random.below(bytes.len() as u64 + 1) as usize),
        1 => bytes.push(random.below(256) as u8),
        _ => {}
    }
}

/// A file damaged anywhere, or in one body and with contents that join.
fn damaged(random: &mut Random, good: &[u8]) -> Vec<u8> {
    if random.once_in(4) {
        let mut bytes = good.to_vec();
        damage(random, &mut bytes);
        return bytes;
    }
    let mut bodies: Vec<Vec<u8>> = (1..=7).map(|kind| reference::body(good, kind).to_vec()).collect();
    let k = random.below(7) as usize;
    damage(random, &mut bodies[k]);
    reference::file(&bodies)
}

/// Whatever rule comes of it, and whatever is answered where none does.
#[test]
fn over_damaged_oracles() {
    let mut given = [0; 18];
    for seed in 0..networks_to_try(4_000) {
        let mut random = Random(9_000_000 + seed);
        let plan = networks::network(&mut random);
        let (n, good) = (plan.places.len(), oracle(&plan, networks::grid(&mut random)));
        let bytes = damaged(&mut random, &good);
        let case = OracleCase::new(move || format!("damaged oracle of seed {seed}"), bytes);
        for _ in 0..3 {
            let legs = entered(&mut random, n);
            let needed = result_size(legs.len() / 4);
            let (words, room) = (pick(&mut random, &[0, 8 * n - 1, 8 * n, 8 * n + 9]), pick(&mut random, &[0, needed - 1, needed, needed + 9]));
            given[case.wages(&legs, words, room).result.err().unwrap_or(0) as usize] += 1;
            if let Ok(mut opened) = case.open(8 * n) {
                let _ = opened.wages(&legs, room);
            }
        }
    }
    println!("given by rule: {given:?}");
    if networks_to_try(4_000) >= 4_000 {
        assert!((0..18).all(|rule| [13, 16].contains(&rule) || given[rule] > 0), "{given:?}");
    }
}

/// The safe calls: each time is that of `time` for its leg, with the number that have none and the total; whatever was asked before.
#[test]
fn beside_the_time_of_each_leg() {
    for seed in 0..networks_to_try(200) {
        let mut random = Random(10_000_000 + seed);
        let plan = networks::network(&mut random);
        let (n, bytes) = (plan.places.len(), oracle(&plan, networks::grid(&mut random)));
        let mut work = vec![0; files::words_needed(&bytes)];
        let mut opened = Oracle::open(bytes.clone()).unwrap();
        for _ in 0..4 {
            let size = random.below(60) as usize;
            let pairs = random_legs(&mut random, n, size);
            let single: Vec<Option<u32>> = pairs.iter().map(|&(s, t)| core::time(&bytes, s, t, &mut work).unwrap().seconds()).collect();
            let (none, total) = (single.iter().filter(|time| time.is_none()).count() as u32, single.iter().flatten().map(|&time| time as u64).sum());
            let expected = Wages { times: single, none, total };
            let (mut out, mut beside) = (vec![0xee; result_size(size)], vec![0xee; result_size(size) + 3]);
            assert_eq!(core::wages(&bytes, &legs(&pairs), &mut work, &mut out), Ok(out.len()));
            assert_eq!(opened.wages(&legs(&pairs), &mut beside), Ok(out.len()));
            assert_eq!((Wages::of(&out), &out[..]), (expected, &beside[..out.len()]), "seed {seed}, {pairs:?}");
            assert_eq!(beside[out.len()..], [0xee; 3]);
            let (s, t) = pairs.first().copied().unwrap_or((0, 0));
            assert_eq!(opened.time(s, t), core::time(&bytes, s, t, &mut work));
        }
    }
}
