//! Sheets of old networks converted: which lines are left, by which numbers and in which order, and that they give over the converted network what the old
//! sheet gave over the old one, where a road closed in body 3 was closed under every sheet.

mod common;

use common::convert::Converter;
use common::networks::{self, Old, Plan};
use common::random_sheets::lines;
use common::reference::sheets::{sheet, Under, CLOSED, DELAYED};
use common::reference::Questions;
use common::sheets::{Line, SheetCase};
use common::{networks_to_try, OracleCase};
use jukesogbi::core;
use jukesogbi::sample::Random;

const ROADS: usize = 16_384;

fn converter(old: &Old) -> Converter {
    let text = format!("{} roads, {} closed", old.plan.roads.len(), old.closed.len());
    Converter::new(move || text.clone(), old.bytes())
}

/// Converts these lines with as much room as they take themselves, and with just what is needed. They must come out as these.
fn convert(case: &Converter, lines: &[Line], expected: &[Line]) {
    let (old, new) = (sheet(lines), sheet(expected));
    let outcome = case.sheet(&old, old.len());
    assert!(outcome.written == new, "{} lines, {} expected", lines.len(), expected.len());
    assert_eq!((case.sheet(&old, new.len()).result, case.sheet(&old, new.len() - 1).result), (Ok(new.len()), Err(15)));
    let mut out = vec![9; new.len() + 3];
    assert_eq!(core::convert_sheet(&case.bytes, &old, &mut out), Ok(new.len()));
    assert!(out == [new, vec![9; 3]].concat());
}

// ---- Which lines are left ----

#[test]
fn by_example() {
    // Fork, roads 1 and 3 closed: 0, 2 and 4 become 0, 1 and 2.
    let case = converter(&Old::of(networks::fork(), [1, 3]));
    convert(&case, &[], &[]);
    convert(&case, &[(CLOSED, 4, 0)], &[(CLOSED, 2, 0)]);
    convert(&case, &[(DELAYED, 2, 70)], &[(DELAYED, 1, 70)]);
    convert(&case, &[(DELAYED, 0, 0)], &[(DELAYED, 0, 0)]);
    // About closed roads only: nothing is left.
    for lines in [&[(CLOSED, 1, 0)][..], &[(DELAYED, 3, 5)], &[(CLOSED, 3, 0), (DELAYED, 1, u32::MAX), (DELAYED, 3, 0), (CLOSED, 1, 0), (CLOSED, 1, 0)]] {
        convert(&case, lines, &[]);
    }
    // The order stays, and every line that is left, also one that holds nothing. 20 is not looked at.
    let first = [(DELAYED, 4, 5), (CLOSED, 3, 0), (CLOSED, 0, 0), (DELAYED, 4, 5)];
    let last = [(DELAYED, 0, u32::MAX), (DELAYED, 1, 1), (CLOSED, 4, 0), (CLOSED, 0, 0), (DELAYED, 2, 66_051)];
    let left = [(DELAYED, 2, 5), (CLOSED, 0, 0), (DELAYED, 2, 5), (DELAYED, 0, u32::MAX), (CLOSED, 2, 0), (CLOSED, 0, 0), (DELAYED, 1, 66_051)];
    convert(&case, &[&first[..], &last].concat(), &left);
    // A network without closed roads leaves each sheet as it is.
    let all = [(CLOSED, 4, 0), (DELAYED, 0, 7), (DELAYED, 3, 1 << 31), (CLOSED, 4, 0), (CLOSED, 1, 0)];
    convert(&converter(&Old::of(networks::fork(), [])), &all, &all);
    // With all roads closed no line is left.
    convert(&converter(&Old::of(networks::fork(), 0..5)), &all, &[]);
}

/// Every set of closed roads of Fork, with lines about every road, in rising and in falling order.
#[test]
fn every_set_of_closed_roads() {
    for set in 0..32u16 {
        let case = converter(&Old::of(networks::fork(), (0..5).filter(|i| set >> i & 1 == 1)));
        let before = |road: u16| (set & ((1 << road) - 1)).count_ones() as u16;
        let lines: Vec<Line> = (0..5).flat_map(|road| [(CLOSED, road, 0), (DELAYED, road, 3 * road as u32)]).collect();
        for lines in [lines.clone(), lines.into_iter().rev().collect()] {
            let left = lines.iter().filter(|line| set >> line.1 & 1 == 0).map(|&(first, road, added)| (first, road - before(road), added));
            convert(&case, &lines, &left.collect::<Vec<_>>());
            for line in &lines {
                let left = (set >> line.1 & 1 == 0).then_some((line.0, line.1 - before(line.1), line.2));
                convert(&case, &[*line], &left.into_iter().collect::<Vec<_>>());
            }
        }
    }
}

// ---- Answers as before ----

/// Time and way of every pair under the old sheet over the old oracle, by the definitions, and under the converted one over the oracle of the converted
/// network. Answers how many pairs were asked, and how many of these were refused by 20.
fn as_before(name: &str, old: &Old, g: u32, lines: &[Line]) -> (usize, usize) {
    let (converter, former) = (converter(old), Questions::old(old.oracle(g)));
    let (old_sheet, before) = (sheet(lines), Under::of(&former, sheet(lines)));
    let outcome = converter.sheet(&old_sheet, old_sheet.len());
    let n = old.plan.places.len() as u32;
    if outcome.result.is_err() {
        // The old sheet answered nothing either.
        assert_eq!(outcome.result.err(), before.time(0, 0, usize::MAX).result.err(), "{name}");
        return (0, 0);
    }
    let text = format!("{name}, converted");
    let case = OracleCase::new(move || text.clone(), common::program::oracle(&old.left_out(), g));
    let text = format!("{lines:?}, converted");
    let under = SheetCase::new(&case, move || text.clone(), outcome.written);
    let (words, room, mut slow) = (case.words(), 2 * n as usize, 0);
    for (s, t) in (0..n).flat_map(|s| (0..n).map(move |t| (s, t))) {
        let (time, at) = (under.time(s, t, words), format!("{name} under {g} and {lines:?}, {s} to {t}"));
        assert_eq!(time, before.time(s, t, words), "{at}");
        assert_eq!(under.way(s, t, words, room), before.way(s, t, words, room), "{at}");
        slow += (time.result == Err(20)) as usize;
    }
    (n.pow(2) as usize, slow)
}

#[test]
fn random_sheets_as_before() {
    let (mut pairs, mut slow, mut refused) = (0, 0, 0);
    for seed in 0..networks_to_try(400) {
        let mut random = Random(8_000_000 + seed);
        let mut old = networks::old_network(&mut random);
        if old.closed.is_empty() {
            old.closed = (0..old.plan.roads.len() as u16).filter(|_| random.once_in(3)).collect();
        }
        let g = networks::grid(&mut random);
        for _ in 0..4 {
            let (asked, over) = as_before(&format!("seed {seed}"), &old, g, &lines(&mut random, &old.plan));
            (pairs, slow, refused) = (pairs + asked, slow + over, refused + (asked == 0) as usize);
        }
    }
    println!("{pairs} pairs, {slow} of them refused by 20, {refused} sheets not converted");
    assert!(pairs > 100_000 && slow > 1_000 && refused > 20, "{pairs} {slow} {refused}");
}

/// Under every grid that a sheet's old answers hang on, and with lines about each road of the old network: closed, delayed, and both.
#[test]
fn lines_about_each_road_as_before() {
    let old = Old::of(networks::fork(), [1]);
    for g in [1, 6, 64] {
        for road in 0..5 {
            for lines in [&[(CLOSED, road, 0)][..], &[(DELAYED, road, 2)], &[(DELAYED, road, u32::MAX), (CLOSED, road, 0)], &[(DELAYED, road, 100_000)]] {
                as_before("Fork with road 1 closed", &old, g, lines);
            }
        }
    }
}

// ---- Many lines ----

/// So many lines that their number passes 16 bits, over the most roads, with none, all, alternate and some of them closed.
#[test]
fn many_lines_over_the_most_roads() {
    let plan = Plan { roads: (0..ROADS as u32).map(|i| (i as u16 % 2, 2, 1 + i)).collect(), ..networks::line() };
    let mut random = Random(5);
    let some: Vec<u16> = (0..ROADS as u16).filter(|_| random.once_in(7)).collect();
    for closed in [vec![], (0..ROADS as u16).collect(), (0..ROADS as u16).step_by(2).collect(), some, vec![0, ROADS as u16 - 1]] {
        let case = converter(&Old::of(plan.clone(), closed.iter().copied()));
        // In closed, `Ok` has the road's place and `Err` how many come before it.
        let number = |road: u16| closed.binary_search(&road).err().map(|before| road - before as u16);
        for count in [ROADS, 65_535, 65_536, 65_537, 200_003] {
            let line = |i: usize| if i % 3 == 0 { (CLOSED, (i * 7_919 % ROADS) as u16, 0) } else { (DELAYED, (i * 31 % ROADS) as u16, i as u32 * 20_011) };
            let lines: Vec<Line> = (0..count).map(line).collect();
            let left = lines.iter().filter_map(|&(first, road, added)| Some((first, number(road)?, added)));
            let (old, new) = (sheet(&lines), sheet(&left.collect::<Vec<_>>()));
            let mut out = vec![9; old.len()];
            assert_eq!(core::convert_sheet(&case.bytes, &old, &mut out), Ok(new.len()), "{count} lines");
            assert!(out[..new.len()] == new && out[new.len()..].iter().all(|&byte| byte == 9), "{count} lines");
            assert_eq!(core::convert_sheet(&case.bytes, &old, &mut out[..new.len() - 1]), Err(core::Refused(15)), "{count} lines");
        }
    }
}

/// A million lines about closed roads only, and a last one about another.
#[test]
fn a_million_lines_that_go() {
    let case = converter(&Old::of(networks::fork(), [0, 2]));
    let mut lines: Vec<Line> = (0..1_000_003).map(|i| if i % 2 == 0 { (CLOSED, 0, 0) } else { (DELAYED, 2, i) }).collect();
    convert(&case, &lines, &[]);
    lines.push((DELAYED, 3, 5));
    convert(&case, &lines, &[(DELAYED, 1, 5)]);
    lines.push((CLOSED, 5, 0));
    assert_eq!(case.sheet(&sheet(&lines), 100).result, Err(19));
}

/// So many lines that 32 bits cannot tell the length of the sheet, though they can that of its body.
#[test]
#[ignore = "takes 9 GB of memory: run it with `-- --ignored`"]
fn the_longest_sheet() {
    let (case, count) = (converter(&Old::of(networks::fork(), [0])), u32::MAX as usize / 7);
    let (line, size) = (sheet(&[(DELAYED, 4, 9)])[11..].to_vec(), 11 + 7 * count);
    assert!(size > u32::MAX as usize);
    let mut old = Vec::with_capacity(size);
    old.extend([&[1, 1, 8, 11, 0, 0, 0][..], &(7 * count as u32).to_le_bytes()].concat());
    (0..count).for_each(|_| old.extend_from_slice(&line));
    let mut out = vec![0; size];
    assert_eq!(core::convert_sheet(&case.bytes, &old, &mut out[..size - 1]), Err(core::Refused(15)));
    assert_eq!(core::convert_sheet(&case.bytes, &old, &mut out), Ok(size));
    assert!(out[..11] == old[..11] && out[11..].chunks(7).all(|line| line == [DELAYED, 3, 0, 9, 0, 0, 0]));
}
