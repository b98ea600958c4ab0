//! Day sheets at their limits: the smallest and the largest networks, and many lines. The core counts lines in blocks of 65,536, so a line that matters
//! stands about their ends.

mod common;

use common::networks::{self, Plan};
use common::reference::sheets::{sheet, CLOSED, DELAYED};
use common::reference::{bytes_16, Answer, Outcome, Pair, WORDS};
use common::sheets::{check_time_under, check_way_under, Line, SheetCase};
use common::{Input, OracleCase};
use jukesogbi::oracle::Oracle;
use jukesogbi::sample::{self, Random};
use jukesogbi::{core, plain};

const PLACES: usize = 4_096;
const ROADS: usize = 16_384;

/// The lines in which the core counts at once.
const BLOCK: usize = 65_536;

fn input(name: &'static str, bytes: &[u8]) -> Input {
    Input::new(move || name.to_string(), bytes)
}

/// The time is seconds and roads.
fn local(time: Option<(u64, u64)>, words: usize) -> Outcome<Answer> {
    Outcome { result: Ok(answer(false, time, 0)), zeroed: words, written: vec![] }
}

fn answer(far: bool, time: Option<(u64, u64)>, pairs: usize) -> Answer {
    Answer { far, time: time.map(|(seconds, roads)| Pair { seconds, roads }), pairs }
}

// ---- Few places ----

#[test]
fn one_place() {
    for g in [1, 6, 64] {
        let case = OracleCase::new(|| "one place".to_string(), networks::one_place().without_transit(g));
        let empty = SheetCase::new(&case, || "no lines".to_string(), sheet(&[]));
        for words in [8, 9, 20] {
            assert_eq!(empty.time(0, 0, words), Outcome { zeroed: 8, ..local(Some((0, 0)), 8) });
            assert_eq!(empty.way(0, 0, words, 2).result, Ok(1));
            assert_eq!(empty.way(0, 0, words, 1).result, Err(15));
            let mut opened = case.open(words).unwrap();
            assert_eq!((opened.time_under(&empty, 0, 0).map(|a| a.seconds()), opened.way_under(&empty, 0, 0, 2)), (Ok(Some(0)), Ok(1)));
        }
        assert_eq!((empty.time(0, 0, 7).result.err(), empty.time(0, 1, 7).result.err()), (Some(14), Some(12)));
        for line in [(CLOSED, 0, 0), (DELAYED, 0, 0), (DELAYED, 65_535, 9)] {
            assert_eq!(SheetCase::new(&case, || "a line".to_string(), sheet(&[line])).time(0, 0, 7).result.err(), Some(19));
        }
        assert_eq!(SheetCase::new(&case, || "wrong".to_string(), sheet(&[(3, 0, 0)])).time(0, 0, 7).result.err(), Some(18));
    }
}

// ---- Many lines ----

/// Lines that change nothing, but for one at each place about the ends of blocks.
#[test]
fn a_line_at_the_ends_of_blocks() {
    let case = OracleCase::new(|| "Fork".to_string(), networks::fork().without_transit(1));
    for count in [BLOCK - 1, BLOCK, BLOCK + 1, 2 * BLOCK, 2 * BLOCK + 1, 200_000] {
        let mut opened = case.open(40).unwrap();
        let mut ask = |at: usize, line: Line| {
            let mut lines = vec![(DELAYED, 0, 0); count];
            lines[at] = line;
            let under = SheetCase::new(&case, move || format!("{count} lines, {line:?} at {at}"), sheet(&lines));
            opened.time_under(&under, 0, 4)
        };
        for at in [0, 1, BLOCK - 2, BLOCK - 1, BLOCK, BLOCK + 1, 2 * BLOCK - 1, 2 * BLOCK, count - 1].into_iter().filter(|&at| at < count) {
            assert_eq!(ask(at, (3, 0, 0)), Err(18), "{count} lines, {at}");
            assert_eq!(ask(at, (CLOSED, 0, 1)), Err(18), "{count} lines, {at}");
            assert_eq!(ask(at, (CLOSED, 5, 0)), Err(19), "{count} lines, {at}");
            assert_eq!(ask(at, (DELAYED, 4, 100_000)), Err(20), "{count} lines, {at}");
            assert_eq!(ask(at, (DELAYED, 4, 30)).unwrap().time, answer(false, Some((41, 3)), 0).time, "{count} lines, {at}");
            assert_eq!(ask(at, (CLOSED, 4, 0)).unwrap().time, None, "{count} lines, {at}");
            // Of the road that all other lines delay, the last delay holds.
            let holds = at == count - 1;
            assert_eq!(ask(at, (DELAYED, 0, 100_000)).err(), if holds { Some(20) } else { None }, "{count} lines, {at}");
        }
    }
}

/// A closure holds wherever it stands, and among delays the last one: two lines about one road among many about the other, at the ends of blocks.
#[test]
fn two_among_many_lines() {
    let case = OracleCase::new(|| "Line".to_string(), networks::line().without_transit(1));
    let (closed, short, long) = ((CLOSED, 0, 0), (DELAYED, 0, 2), (DELAYED, 0, 40));
    for count in [BLOCK, BLOCK + 1, 3 * BLOCK] {
        for (first, last) in [(0, BLOCK - 1), (BLOCK - 2, BLOCK - 1), (0, count - 1), (BLOCK - 1, count - 1)].into_iter().filter(|(a, b)| a < b) {
            let mut lines = vec![(DELAYED, 1, 5); count];
            let mut ask = |one: Line, other: Line| {
                (lines[first], lines[last]) = (one, other);
                time_0_to_2(&case, &lines)
            };
            let at = format!("{count} lines, {first} and {last}");
            assert_eq!((ask(closed, short), ask(short, closed), ask(closed, closed)), (Ok(None), Ok(None), Ok(None)), "{at}");
            assert_eq!((ask(long, short), ask(short, long)), (Ok(Some(23)), Ok(Some(61))), "{at}");
            // So for 20.
            let over = (DELAYED, 0, u32::MAX);
            assert_eq!((ask(closed, over), ask(over, closed), ask(over, short), ask(short, over)), (Ok(None), Ok(None), Ok(Some(23)), Err(20)), "{at}");
        }
    }
}

/// One closure among many delays of its road, at the ends of blocks and anywhere; and the last of these delays where there is none.
#[test]
fn a_closure_among_many_delays() {
    let case = OracleCase::new(|| "Line".to_string(), networks::line().without_transit(1));
    for count in [BLOCK - 1, BLOCK, BLOCK + 1, 3 * BLOCK + 7] {
        let mut lines: Vec<Line> = (0..count).map(|i| (DELAYED, 0, i as u32 % 1_000)).collect();
        lines[count - 1].2 = 4;
        assert_eq!(time_0_to_2(&case, &lines), Ok(Some(20)), "{count} lines");
        for at in [0, 1, 40_000, BLOCK - 2, BLOCK - 1, BLOCK, 2 * BLOCK, count - 2, count - 1].into_iter().filter(|&at| at < count) {
            let delay = std::mem::replace(&mut lines[at], (CLOSED, 0, 0));
            assert_eq!(time_0_to_2(&case, &lines), Ok(None), "{count} lines, closed by {at}");
            lines[at] = delay;
        }
    }
}

/// Line's time from 0 to 2, by both kinds of calls.
fn time_0_to_2(case: &OracleCase, lines: &[Line]) -> Result<Option<u64>, u32> {
    let count = lines.len();
    let under = SheetCase::new(case, move || format!("{count} lines"), sheet(lines));
    case.open(case.words()).unwrap().time_under(&under, 0, 2).map(|answer| answer.seconds())
}

/// So many lines that their number passes 16 bits many times, all of which keep each rule.
#[test]
fn a_million_lines() {
    let case = OracleCase::new(|| "Fork".to_string(), networks::fork().without_transit(1));
    let lines: Vec<Line> = (0..1_000_003).map(|i| if i % 3 == 0 { (CLOSED, (i % 5) as u16, 0) } else { (DELAYED, (i % 5) as u16, i % 900) }).collect();
    let under = SheetCase::new(&case, || "a million lines".to_string(), sheet(&lines));
    for (s, t) in [(0, 4), (1, 2), (3, 3)] {
        assert!(under.time(s, t, 40).result.is_ok());
        assert!(under.way(s, t, 40, 10).result.is_ok());
    }
    // The body is cut within its last line.
    let cut = SheetCase::new(&case, || "a million lines, cut".to_string(), under.reference.sheet[..under.reference.sheet.len() - 1].to_vec());
    assert_eq!(cut.time(0, 4, 40).result.err(), Some(18));
}

// ---- The most places and roads ----

/// Random roads of so many, each line a closure or a delay.
fn random_lines(random: &mut Random, roads: usize, count: usize) -> Vec<Line> {
    let road = |random: &mut Random| random.below(roads as u64) as u16;
    (0..count).map(|_| if random.once_in(3) { (CLOSED, road(random), 0) } else { (DELAYED, road(random), random.below(300) as u32) }).collect()
}

/// Some pairs over the most places, under sheets from few lines to many more than there are roads.
#[test]
fn the_most_places() {
    let network = sample::network(PLACES, 5);
    let case = OracleCase::new(|| "sample of the most places".to_string(), plain::build(&network.to_bytes(), 16));
    let (mut random, mut opened) = (Random(8), case.open(WORDS * PLACES + 5).unwrap());
    for count in [0, 10, 1_000, BLOCK + 7] {
        let lines = random_lines(&mut random, network.edges.len(), count);
        let under = SheetCase::new(&case, move || format!("{count} lines"), sheet(&lines));
        for _ in 0..3 {
            let (s, t) = (random.below(PLACES as u64) as u32, random.below(PLACES as u64) as u32);
            assert!(opened.time_under(&under, s, t).is_ok());
            assert!(opened.way_under(&under, s, t, 2 * PLACES).is_ok());
        }
        assert_eq!(opened.time_under(&under, 0, PLACES as u32), Err(12));
        assert_eq!(under.time(0, 9, WORDS * PLACES - 1).result.err(), Some(14));
    }
}

/// The most roads over the most places, in no order: the first and the last road, and all of them, are named.
#[test]
fn the_most_places_and_roads() {
    let mut plan = networks::dense();
    plan.roads.resize(ROADS, (7, 9, 100_000));
    let last = ROADS as u16 - 1;
    let case = OracleCase::new(|| "the most places and roads".to_string(), plan.without_transit(1));
    let (mut random, mut opened) = (Random(9), case.open(WORDS * PLACES).unwrap());
    let all = |line: fn(u16) -> Line| (0..ROADS as u16).rev().map(line).collect::<Vec<Line>>();
    let delay = |plan: &Plan, road: u16| (DELAYED, road, 100_000 - plan.roads[road as usize].2);
    for lines in [
        vec![(CLOSED, 0, 0), (CLOSED, last, 0)],
        all(|road| (CLOSED, road, 0)),
        all(|road| (DELAYED, road, road as u32 % 11)).into_iter().filter(|line| line.1 != last && line.1 < 16_000).collect(),
        (0..ROADS as u16).map(|road| delay(&plan, road)).collect(),
        [all(|road| (CLOSED, road, 0)), random_lines(&mut random, ROADS / 2, 3 * ROADS)].concat(),
    ] {
        let count = lines.len();
        let under = SheetCase::new(&case, move || format!("{count} lines"), sheet(&lines));
        for (s, t) in [(7, 9), (0, 4_095), (random.below(4_096) as u32, random.below(4_096) as u32)] {
            assert!(opened.time_under(&under, s, t).is_ok());
            assert!(opened.way_under(&under, s, t, 2 * PLACES).is_ok());
        }
    }
    for (line, rule) in [((DELAYED, last, 1), Some(20)), ((CLOSED, ROADS as u16, 0), Some(19)), ((DELAYED, last, 0), None)] {
        let under = SheetCase::new(&case, || "the last road".to_string(), sheet(&[line]));
        assert_eq!(under.time(1, 1, WORDS * PLACES).result.err(), rule, "{line:?}");
    }
}

/// All roads between two places, side by side and equally quick: as long as one is left the old answer stands.
#[test]
fn the_most_roads_side_by_side() {
    let plan = Plan { places: vec![(0, 0), (60, 0)], roads: vec![(0, 1, 9); ROADS] };
    let case = OracleCase::new(|| "16,384 roads side by side".to_string(), common::program::oracle(&plan, 6));
    let mut opened = case.open(16).unwrap();
    let mut ask = |lines: Vec<Line>| opened.time_under(&SheetCase::new(&case, || "a sheet".to_string(), sheet(&lines)), 0, 1).unwrap();
    let all = || (0..ROADS as u16).map(|road| (CLOSED, road, 0));
    assert!(case.reference.time(0, 1, 16).result.unwrap().far);
    for left in [0, 1, 8_191, ROADS as u16 - 1] {
        assert_eq!(ask(all().filter(|line| line.1 != left).collect()), answer(true, Some((9, 1)), 1), "{left}");
        let others = || all().map(|line| if line.1 == left { (DELAYED, left, 2) } else { line });
        assert_eq!(ask(others().collect()), answer(false, Some((11, 1)), 0), "{left}");
    }
    // None is left.
    assert_eq!(ask(all().collect()), answer(false, None, 0));
}

/// The longest way, each of its roads delayed; a sheet that closes what is beside it; and one that closes its middle. The reference's ways would take too
/// long here, and the answers are plain.
#[test]
fn the_longest_way() {
    let places = (0..PLACES as i32).map(|k| (k, 0)).collect();
    let roads: Vec<(u16, u16, u32)> = (0..PLACES as u16 - 1).map(|u| (u, u + 1, 99_998)).collect();
    let beside: Vec<(u16, u16, u32)> = (0..PLACES as u16 - 2).map(|u| (u + 2, u, 100_000)).take(2).collect();
    let plan = Plan { places, roads: [roads, beside].concat() };
    let oracle = input("chain", &plan.without_transit(1));
    let (last, words) = (PLACES as u32 - 1, WORDS * PLACES);
    // The two roads beside the chain, each of which is quicker than the two that it passes by, closed under every sheet here.
    let beside = [(DELAYED, PLACES as u16, 9), (CLOSED, PLACES as u16 - 1, 0), (CLOSED, PLACES as u16, 0)];
    let with = |lines: &[Line]| sheet(&[lines, &beside].concat());
    let way = |places: Vec<usize>| Outcome { result: Ok(places.len()), zeroed: words, written: places.into_iter().flat_map(bytes_16).collect() };
    let delayed = input("all delayed", &with(&(0..PLACES as u16 - 1).rev().map(|road| (DELAYED, road, 2)).collect::<Vec<_>>()));
    check_time_under(&oracle, &delayed, 0, last, words, &local(Some((409_500_000, 4_095)), words));
    check_way_under(&oracle, &delayed, 0, last, words, 2 * PLACES, &way((0..PLACES).collect()));
    check_way_under(&oracle, &delayed, last, 0, words + 3, 2 * PLACES + 5, &way((0..PLACES).rev().collect()));
    check_way_under(&oracle, &delayed, 0, last, words, 2 * PLACES - 1, &Outcome { result: Err(15), zeroed: words, written: vec![] });
    check_time_under(&oracle, &delayed, 0, last, words - 1, &Outcome { result: Err(14), zeroed: 0, written: vec![] });
    let beside = input("closed beside", &with(&[]));
    check_time_under(&oracle, &beside, last, 0, words, &local(Some((4_095 * 99_998, 4_095)), words));
    let middle = input("closed in the middle", &with(&[(CLOSED, 2_047, 0)]));
    check_time_under(&oracle, &middle, 0, last, words, &local(None, words));
    check_time_under(&oracle, &middle, 0, 2_047, words, &local(Some((2_047 * 99_998, 2_047)), words));
    check_way_under(&oracle, &middle, 0, last, words, 0, &way(vec![]));
}

/// A far pair of the largest built oracle at hand, asked many times: the old answer stands, or is searched, whatever was asked before.
#[test]
fn far_pairs_of_the_most_places() {
    let network = networks::chains().bytes();
    let bytes = plain::build(&network, 64);
    let mut oracle = Oracle::open(&bytes[..]).unwrap();
    let mut work = vec![0; WORDS * PLACES];
    // The chain of place 0: 0, 512, 1,024 and so on to 3,584, by roads 0, 512 and so on.
    let old = core::time(&bytes, 0, 3_584, &mut work).unwrap();
    assert_eq!((old.time, old.kind), (core::Time::of(35, 7), core::Kind::Far));
    for (lines, expected) in [
        (vec![], old),
        (vec![(CLOSED, 1, 0), (DELAYED, 511, 4)], old),
        (vec![(DELAYED, 1_024, 0)], old),
        (vec![(DELAYED, 1_024, 3)], core::Answer { time: core::Time::of(38, 7), kind: core::Kind::Local, pairs: 0 }),
        (vec![(CLOSED, 1_024, 0)], core::Answer { time: None, kind: core::Kind::Local, pairs: 0 }),
    ] {
        let sheet = sheet(&lines);
        assert_eq!(core::time_under(&bytes, &sheet, 0, 3_584, &mut work), Ok(expected), "{lines:?}");
        for _ in 0..2 {
            assert_eq!(oracle.time_under(&sheet, 0, 3_584), Ok(expected), "{lines:?}");
            assert_eq!(oracle.time(0, 3_584), Ok(old), "{lines:?}");
        }
    }
}
