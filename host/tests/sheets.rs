//! Time and way under day sheets at random, over built oracles and over well-shaped ones that were never built: every pair, by the calls that check the
//! oracle and over an opened one, in what they hand back and in every lent word and byte.

mod common;

use common::program::oracle;
use common::random_sheets::{lines, never_built, Drawn, ORACLES};
use common::reference::sheets::{delay_after_closure, sheet, DELAYED};
use common::sheets::{Line, SheetCase};
use common::{networks, networks_to_try, OracleCase};
use jukesogbi::oracle::Oracle;
use jukesogbi::sample::Random;
use jukesogbi::{core, files};

/// How often something was met.
#[derive(Debug, Default)]
struct Met {
    pairs: u64,
    far_kept: u64,
    far_none_kept: u64,
    far_searched: u64,
    local_changed: u64,
    walk_lost: u64,
    way_changed: u64,
    /// Pairs answered under a sheet of T-05's kind, and under one that delays a road again and does not close it.
    delayed_after_closure: u64,
    delayed_again: u64,
    given: [u64; 21],
}

impl Met {
    fn count<V>(&mut self, result: &Result<V, u32>) {
        self.given[*result.as_ref().err().unwrap_or(&0) as usize] += 1;
    }
}

/// Every pair, by both kinds of calls. Over a built oracle the answer is the least pair over the roads as the sheet leaves them.
fn all_pairs(case: &OracleCase, under: &SheetCase, built: bool, met: &mut Met) {
    let n = case.reference.size() as u32;
    let mut opened = case.open(case.words()).unwrap();
    for (s, t) in (0..n).flat_map(|s| (0..n).map(move |t| (s, t))) {
        let old = case.reference.time(s, t, case.words()).result.unwrap();
        let (time, way) = (opened.time_under(under, s, t), opened.way_under(under, s, t, 2 * n as usize));
        met.count(&time);
        met.count(&way);
        let Ok(new) = time else { continue };
        if built {
            assert_eq!(new.time, under.reference.map().unwrap().d(s as usize, t as usize), "{}: {s} to {t}", (case.input.name)());
        }
        met.pairs += 1;
        met.far_kept += (new.far && new.time.is_some()) as u64;
        met.far_none_kept += (new.far && new.time.is_none()) as u64;
        met.far_searched += (old.far && !new.far) as u64;
        met.local_changed += (!old.far && old != new) as u64;
        met.walk_lost += (old.time.is_some() && new.time.is_none()) as u64;
        let [before, after] = [case.reference.way(s, t, case.words(), 99).written, under.reference.way(s, t, case.words(), 99).written];
        met.way_changed += (before != after) as u64;
    }
}

/// Places that are none, and words and room around what is needed, with whatever sheet there is.
fn arguments(under: &SheetCase, n: u32, random: &mut Random, met: &mut Met) {
    let words = under.words();
    for _ in 0..4 {
        let (s, t) = (random.below(n as u64) as u32, random.below(n as u64) as u32);
        let more = 1 + random.below(30) as usize;
        let needed = 2 * under.reference.way(s, t, words, 2 * n as usize).result.unwrap_or(0);
        for lent in [0, words - 1, words, words + more] {
            for (s, t) in [(s, t), (n, t), (s, u32::MAX)] {
                met.count(&under.time(s, t, lent).result);
                for room in [0, needed.saturating_sub(1), needed, needed + more] {
                    met.count(&under.way(s, t, lent, room).result);
                }
            }
        }
    }
}

/// Whether these lines delay a road twice and close it nowhere.
fn delays_again(lines: &[Line]) -> bool {
    let about = |road: u16| lines.iter().filter(move |line| line.1 == road);
    lines.iter().any(|line| about(line.1).count() > 1 && about(line.1).all(|line| line.0 == DELAYED))
}

/// Several sheets over one oracle.
fn try_sheets(drawn: Drawn, seed: u64, met: &mut Met) {
    let Drawn { plan, oracle, built, sheets, mut random } = drawn;
    let case = OracleCase::new(move || format!("oracle{} of seed {seed}", if built { "" } else { " never built," }), oracle);
    for (round, lines) in sheets.into_iter().enumerate() {
        let text = lines.clone();
        let under = SheetCase::new(&case, move || format!("lines {text:?}"), sheet(&lines));
        let before = met.pairs;
        all_pairs(&case, &under, built, met);
        let answered = met.pairs - before;
        met.delayed_after_closure += if delay_after_closure(&lines) { answered } else { 0 };
        met.delayed_again += if delays_again(&lines) { answered } else { 0 };
        if round == 0 {
            arguments(&under, plan.places.len() as u32, &mut random, met);
        }
    }
}

fn assert_met(met: &Met) {
    println!("{met:?}");
    if networks_to_try(ORACLES) >= ORACLES {
        let often = [met.far_kept, met.far_none_kept, met.far_searched, met.local_changed, met.walk_lost, met.way_changed];
        assert!(often.iter().all(|&count| count > 2_000), "{met:?}");
        assert!([met.delayed_after_closure, met.delayed_again].iter().all(|&count| count > 20_000), "{met:?}");
        assert!([0, 12, 14, 15, 19, 20].iter().all(|&rule: &usize| met.given[rule] > 100), "{met:?}");
    }
}

#[test]
fn over_built_oracles() {
    let mut met = Met::default();
    (0..networks_to_try(ORACLES)).for_each(|seed| try_sheets(Drawn::built(seed), seed, &mut met));
    assert_met(&met);
}

#[test]
fn over_oracles_never_built() {
    let mut met = Met::default();
    (0..networks_to_try(ORACLES)).for_each(|seed| try_sheets(Drawn::never_built(seed), seed, &mut met));
    assert_met(&met);
}

/// A sheet without lines changes nothing, over any oracle.
#[test]
fn no_lines() {
    for seed in 0..networks_to_try(150) {
        let mut random = Random(5_000_000 + seed);
        let plan = networks::network(&mut random);
        let g = networks::grid(&mut random);
        let built = seed % 2 == 0;
        let bytes = if built { oracle(&plan, g) } else { never_built(&mut random, &plan, g) };
        let case = OracleCase::new(move || format!("oracle of seed {seed}"), bytes);
        let (under, n, words) = (SheetCase::new(&case, || "no lines".to_string(), sheet(&[])), plan.places.len(), case.words());
        for (s, t) in (0..n as u32).flat_map(|s| (0..n as u32).map(move |t| (s, t))) {
            let (old, new) = (case.time(s, t, words).result, under.time(s, t, words).result);
            // A time from lists and table alone, with no way, is not kept where there never was a way.
            let lost = old.unwrap().time.is_some() && case.reference.map().unwrap().d(s as usize, t as usize).is_none();
            assert!(old == new || lost && !built, "seed {seed}, {s} to {t}");
            assert_eq!(case.way(s, t, words, 2 * n), under.way(s, t, words, 2 * n), "seed {seed}, {s} to {t}");
        }
    }
}

/// The safe calls and the safe type, sheets and plain questions in turn: each answer is that of the call which checks, whatever was asked before.
#[test]
fn the_safe_calls_in_turn() {
    for seed in 0..networks_to_try(120) {
        let mut random = Random(6_000_000 + seed);
        let plan = networks::network(&mut random);
        let (bytes, n) = (oracle(&plan, networks::grid(&mut random)), plan.places.len());
        let mut work = vec![0; files::words_needed(&bytes)];
        let mut opened = Oracle::open(bytes.clone()).unwrap();
        let sheets: Vec<Vec<u8>> = (0..3).map(|_| sheet(&lines(&mut random, &plan))).chain([vec![], sheet(&[])]).collect();
        for _ in 0..60 {
            let (s, t) = (random.below(n as u64 + 1) as u32, random.below(n as u64) as u32);
            let sheet = &sheets[random.below(sheets.len() as u64) as usize];
            let (mut out, mut beside) = (vec![0xee; 2 * n], vec![0xee; 2 * n]);
            match random.below(5) {
                0 => assert_eq!(opened.time(s, t), core::time(&bytes, s, t, &mut work)),
                1 => assert_eq!(opened.way(s, t, &mut out), core::way(&bytes, s, t, &mut work, &mut beside)),
                2 => assert_eq!(opened.block(&[s, t], &[t]), core::block(&bytes, &[s, t], &[t], &mut work)),
                3 => assert_eq!(opened.time_under(sheet, s, t), core::time_under(&bytes, sheet, s, t, &mut work)),
                _ => assert_eq!(opened.way_under(sheet, s, t, &mut out), core::way_under(&bytes, sheet, s, t, &mut work, &mut beside)),
            }
            assert_eq!(out, beside);
        }
    }
}
