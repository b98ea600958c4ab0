//! The reference's day sheets held against what else is known: document 02's sentences by example, and all least walks one by one. No call of the core
//! is made here.

// The differential tests use the rest.
#![allow(dead_code)]

#[path = "common/networks.rs"]
mod networks;
#[path = "common/reference.rs"]
mod reference;

use jukesogbi::sample::Random;
use networks::{Old, Plan};
use reference::sheets::{breaks_18, delay_after_closure, sheet, with_contents, Under, CLOSED, DELAYED};
use reference::{Answer, Map, Network, Pair, Questions};

/// More than any small network needs.
const MUCH: usize = 10_000;

type Line = (u8, u16, u32);

fn asked(plan: &Plan, g: u32) -> Questions {
    Questions::of(Network::of(plan.bytes()).oracle(g).bytes.clone())
}

/// Time and way under these lines.
fn under(o: &Questions, lines: &[Line], s: u32, t: u32) -> (Result<Answer, u32>, Vec<u8>) {
    let under = Under::of(o, sheet(lines));
    let way = under.way(s, t, MUCH, MUCH);
    let places: Vec<u8> = way.written.chunks(2).map(|place| place[0]).collect();
    assert_eq!(way.result, under.time(s, t, MUCH).result.map(|_| places.len()));
    (under.time(s, t, MUCH).result, places)
}

fn far(seconds: u64, roads: u64, pairs: usize) -> Result<Answer, u32> {
    Ok(Answer { far: true, time: Some(Pair { seconds, roads }), pairs })
}

fn local(seconds: u64, roads: u64) -> Result<Answer, u32> {
    Ok(Answer { far: false, time: Some(Pair { seconds, roads }), pairs: 0 })
}

const NO_LOCAL: Result<Answer, u32> = Ok(Answer { far: false, time: None, pairs: 0 });

fn no_far(pairs: usize) -> Result<Answer, u32> {
    Ok(Answer { far: true, time: None, pairs })
}

#[test]
fn lines_on_fork() {
    let fork = asked(&networks::fork(), 6);
    let on = |lines: &[Line]| under(&fork, lines, 0, 4);
    let old = (far(11, 3, 4), vec![0, 1, 3, 4]);
    // No line, none on the way, a delay of nothing, and a delay that is taken back.
    assert_eq!(on(&[]), old);
    assert_eq!(on(&[(CLOSED, 1, 0), (DELAYED, 3, 99_995)]), old);
    assert_eq!(on(&[(DELAYED, 0, 0)]), old);
    assert_eq!(on(&[(DELAYED, 0, 7), (DELAYED, 0, 0)]), old);
    // A step slower or closed: the other side is as quick, and found by a search. A closure is not taken back by a delay.
    for lines in [
        &[(DELAYED, 0, 1)][..], &[(CLOSED, 2, 0)], &[(DELAYED, 0, 0), (CLOSED, 0, 0)], &[(CLOSED, 0, 0), (CLOSED, 0, 0)], &[(CLOSED, 0, 0), (DELAYED, 0, 0)],
        &[(DELAYED, 0, 0), (DELAYED, 0, 1)], &[(CLOSED, 0, 0), (DELAYED, 0, 0), (CLOSED, 0, 0)],
    ] {
        assert_eq!(on(lines), (local(11, 3), vec![0, 2, 3, 4]));
    }
    assert_eq!(on(&[(DELAYED, 4, 99_999)]), (local(100_010, 3), vec![0, 1, 3, 4]));
    assert_eq!(on(&[(CLOSED, 4, 0)]), (NO_LOCAL, vec![]));
    assert_eq!(under(&fork, &[(CLOSED, 4, 0), (CLOSED, 0, 0)], 0, 0), (local(0, 0), vec![0]));
    // What an old network has closed stays closed, and what was 'none' stays as it was.
    let closed = Questions::old(networks::fork_closed().oracle(6));
    for line in [(DELAYED, 4, 0), (DELAYED, 4, u32::MAX), (CLOSED, 4, 0), (CLOSED, 0, 0)] {
        assert_eq!(under(&closed, &[line], 0, 4), (no_far(0), vec![]));
        assert_eq!(under(&closed, &[(CLOSED, 4, 0), line], 0, 4), (no_far(0), vec![]));
    }
}

/// The rule of before beside that of now, and T-05's sentence on where they differ, by example.
#[test]
fn what_was_until_t_05() {
    let (line, close, delay) = (asked(&networks::line(), 6), (CLOSED, 0, 0), |added: u32| (DELAYED, 0, added));
    let seconds = |under: Under| under.time(0, 1, MUCH).result.map(|answer| answer.seconds());
    let both = |lines: &[Line]| (seconds(Under::former(&line, sheet(lines))), seconds(Under::of(&line, sheet(lines))));
    for (lines, before) in [
        (&[close, delay(3)][..], Ok(Some(10))),
        (&[close, delay(0)], Ok(Some(7))),
        (&[delay(3), close, delay(5)], Ok(Some(12))),
        (&[close, delay(3), close, delay(4), delay(5)], Ok(Some(12))),
        (&[close, (CLOSED, 1, 0), delay(3), (CLOSED, 1, 0)], Ok(Some(10))),
        (&[close, delay(99_994)], Err(20)),
        (&[close, delay(u32::MAX)], Err(20)),
    ] {
        assert_eq!((both(lines), delay_after_closure(lines)), ((before, Ok(None)), true), "{lines:?}");
    }
    for (lines, both_times) in [
        (&[][..], Ok(Some(7))),
        (&[close], Ok(None)),
        (&[delay(3), close], Ok(None)),
        (&[delay(99_994), close], Ok(None)),
        (&[close, delay(3), close], Ok(None)),
        (&[close, delay(u32::MAX), close], Ok(None)),
        (&[delay(5), delay(3)], Ok(Some(10))),
        (&[delay(99_994), delay(3)], Ok(Some(10))),
        (&[delay(3), delay(99_994)], Err(20)),
        (&[(CLOSED, 1, 0), delay(3)], Ok(Some(10))),
        (&[(CLOSED, 1, 0), delay(99_994)], Err(20)),
    ] {
        assert_eq!((both(lines), delay_after_closure(lines)), ((both_times, both_times), false), "{lines:?}");
    }
}

#[test]
fn a_parallel_road_serves() {
    let with = |seconds: u32| Plan { roads: vec![(0, 1, 7), (1, 2, 9), (1, 0, seconds)], ..networks::line() };
    let way = vec![0, 1, 2];
    assert_eq!(under(&asked(&with(7), 6), &[(CLOSED, 0, 0)], 0, 2), (far(16, 2, 1), way.clone()));
    assert_eq!(under(&asked(&with(7), 6), &[(DELAYED, 0, 1)], 0, 2), (far(16, 2, 1), way.clone()));
    assert_eq!(under(&asked(&with(7), 6), &[(DELAYED, 0, 1), (DELAYED, 2, 2)], 0, 2), (local(17, 2), way.clone()));
    assert_eq!(under(&asked(&with(8), 6), &[(CLOSED, 0, 0)], 0, 2), (local(17, 2), way.clone()));
    // A quicker road, delayed to just the old time, is no road of the old way; the old way is by the quicker one.
    assert_eq!(under(&asked(&with(6), 6), &[(DELAYED, 2, 1)], 0, 2), (local(16, 2), way));
    assert_eq!(under(&asked(&with(7), 6), &[(CLOSED, 0, 0), (CLOSED, 2, 0)], 0, 2), (NO_LOCAL, vec![]));
}

#[test]
fn rules_by_example() {
    let line = asked(&networks::line(), 6);
    let rule = |bytes: Vec<u8>| Under::of(&line, bytes).time(0, 2, MUCH).result.err();
    let lines = |lines: &[Line]| rule(sheet(lines));
    assert_eq!((lines(&[]), lines(&[(CLOSED, 1, 0)])), (None, None));
    for (wrong, line) in [(0, (0, 0, 0)), (1, (3, 0, 0)), (2, (255, 0, 0)), (3, (CLOSED, 0, 1)), (4, (CLOSED, 0, 1 << 24))] {
        assert_eq!(lines(&[(DELAYED, 0, 1), line]), Some(18), "{wrong}");
        // Over all lines before 19, and 19 before 20.
        assert_eq!(lines(&[(CLOSED, 9, 0), (DELAYED, 0, u32::MAX), line]), Some(18), "{wrong}");
    }
    assert_eq!((lines(&[(CLOSED, 2, 0)]), lines(&[(DELAYED, 0, u32::MAX), (DELAYED, 65_535, 0)])), (Some(19), Some(19)));
    assert_eq!((lines(&[(DELAYED, 0, 99_993)]), lines(&[(DELAYED, 0, 99_994)])), (None, Some(20)));
    // By the line that holds.
    assert_eq!(lines(&[(DELAYED, 0, 99_994), (DELAYED, 0, 1)]), None);
    assert_eq!(lines(&[(DELAYED, 0, 99_994), (CLOSED, 0, 0)]), None);
    assert_eq!(lines(&[(CLOSED, 0, 0), (DELAYED, 0, 99_994)]), None);
    assert_eq!(lines(&[(DELAYED, 0, 1), (CLOSED, 1, 0), (DELAYED, 0, u32::MAX)]), Some(20));
    for cut in 0..11 {
        assert!(breaks_18(&sheet(&[])[..cut]));
    }
    let good = sheet(&[(DELAYED, 0, 1)]);
    for at in 0..11 {
        let mut bytes = good.clone();
        bytes[at] ^= 1;
        assert_eq!(rule(bytes), Some(18), "byte {at}");
    }
    assert_eq!(rule([&good[..], &[0]].concat()), Some(18));
    for size in 0..30 {
        assert_eq!(breaks_18(&with_contents(vec![2; size])), size % 7 != 0, "a body of {size} bytes");
    }
}

/// Times are whatever bodies 6 and 7 hold: an old answer without any old way is not kept, and an old 'none' is.
#[test]
fn oracles_never_built() {
    let mut bodies: Vec<Vec<u8>> = (1..=7).map(|kind| reference::body(&asked(&networks::line(), 6).bytes, kind).to_vec()).collect();
    bodies[6] = vec![50, 0, 0, 0, 9, 0];
    let slower = Questions::of(reference::file(&bodies));
    assert_eq!(under(&slower, &[], 0, 2), (far(66, 11, 1), vec![0, 1, 2]));
    assert_eq!(under(&slower, &[(DELAYED, 0, 1)], 0, 2), (local(17, 2), vec![0, 1, 2]));
    let mut islands = bodies.clone();
    islands[1].drain(..8);
    assert_eq!(under(&Questions::of(reference::file(&islands)), &[], 0, 2), (NO_LOCAL, vec![]));
    bodies[6] = vec![255; 6];
    let none = Questions::of(reference::file(&bodies));
    assert_eq!(under(&none, &[], 0, 2), (no_far(1), vec![0, 1, 2]));
    assert_eq!(under(&none, &[(CLOSED, 0, 0)], 0, 2), (no_far(1), vec![]));
}

// ---- All walks ----

/// All walks from the last of `walk` to t that come by no place twice, each with its pair.
fn all_walks(map: &Map, walk: &mut Vec<usize>, pair: Pair, t: usize, found: &mut Vec<(Pair, Vec<usize>)>) {
    let u = *walk.last().unwrap();
    if u == t {
        found.push((pair, walk.clone()));
        return;
    }
    for (from, to, seconds) in map.steps() {
        if from == u && !walk.contains(&to) {
            walk.push(to);
            all_walks(map, walk, pair + Pair::road(seconds), t, found);
            walk.pop();
        }
    }
}

/// Over a built oracle the time is the least pair over walks on the roads as the sheet leaves them, and the way the first of the least ones. The roads
/// are changed here in the plan, so that the reference's own map of them is judged too.
#[test]
fn built_oracles_answer_least_pairs() {
    let (mut kept, mut searched, mut none, mut refused) = (0, 0, 0, 0);
    for seed in 0..3_000 {
        let mut random = Random(seed);
        let plan = networks::network(&mut random);
        if plan.places.len() > 8 || plan.roads.len() > 12 || plan.roads.is_empty() {
            continue;
        }
        let o = asked(&plan, networks::grid(&mut random));
        let road = |random: &mut Random| random.below(plan.roads.len() as u64) as u16;
        let line = |random: &mut Random| if random.once_in(2) { (CLOSED, road(random), 0) } else { (DELAYED, road(random), random.below(9) as u32) };
        let lines: Vec<Line> = (0..random.below(6)).map(|_| line(&mut random)).collect();
        let mut left = Old::of(plan.clone(), []);
        for (i, road) in left.plan.roads.iter_mut().enumerate() {
            let about: Vec<&Line> = lines.iter().filter(|line| line.1 as usize == i).collect();
            if about.iter().any(|line| line.0 == CLOSED) {
                left.closed.push(i as u16);
            } else if let Some(line) = about.last() {
                road.2 += line.2;
            }
        }
        let under = Under::of(&o, sheet(&lines));
        // The plan's roads over 100,000 seconds are refused as a network's, by 6, where the sheet is refused by 20.
        let left = left.left_out();
        let over = left.roads.iter().any(|road| road.2 > 100_000);
        assert_eq!(under.map().is_none(), over, "seed {seed}");
        if over {
            refused += 1;
            continue;
        }
        let network = Network::of(left.bytes());
        for s in 0..plan.places.len() {
            for t in 0..plan.places.len() {
                let mut walks = Vec::new();
                all_walks(network.map().unwrap(), &mut vec![s], Pair::ZERO, t, &mut walks);
                let (least, at) = (walks.iter().min().cloned(), format!("seed {seed}, {s} to {t}, {lines:?}"));
                let (answer, way) = (under.time(s as u32, t as u32, MUCH).result.unwrap(), under.way(s as u32, t as u32, MUCH, MUCH));
                assert_eq!(answer.time, least.as_ref().map(|w| w.0), "{at}");
                assert_eq!(way.written, least.map_or(vec![], |w| w.1.into_iter().flat_map(reference::bytes_16).collect()), "{at}");
                // Far is kept or nothing is.
                let old = o.time(s as u32, t as u32, MUCH).result.unwrap();
                assert!(answer == old || !answer.far && answer.pairs == 0, "{at}");
                kept += (answer.far && answer.time.is_some()) as u32;
                searched += (old.far && !answer.far) as u32;
                none += (old.time.is_some() && answer.time.is_none()) as u32;
            }
        }
    }
    println!("far kept {kept}, far no more {searched}, no more a walk {none}, refused {refused}");
    assert!(kept > 1_000 && searched > 1_000 && none > 1_000 && refused > 5);
}
