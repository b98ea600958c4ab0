//! Pictures: read back from their text, and held against the oracle and the core's answers.

mod common;
#[path = "common/drawn.rs"]
mod drawn;
#[path = "common/picture.rs"]
mod picture;

use common::built::built;
use common::networks::{self, Plan};
use drawn::{random_sheet, tangle, way, Case};
use jukesogbi::sample::{self, Random};
use jukesogbi::sheet::{self, Line};
use jukesogbi::{core, draw, files};
use picture::Bounds;
use std::collections::BTreeSet;
use std::sync::OnceLock;
use std::time::{Duration, Instant};

/// Pictures of networks of all sizes, road-like ones and others.
fn cases() -> &'static [Case] {
    static CASES: OnceLock<Vec<Case>> = OnceLock::new();
    CASES.get_or_init(all_cases)
}

fn all_cases() -> Vec<Case> {
    let mut random = Random(11);
    let mut cases = Vec::new();
    for n in [1, 2, 12, 60, 150, 500, 4096] {
        let g = networks::grid(&mut random);
        cases.push(Case::random(built(&sample::network(n, n as u64).to_bytes(), g), &mut random));
        for roads in [n, 4 * n] {
            cases.push(Case::random(tangle(n, roads, &mut random).without_transit(g), &mut random));
        }
    }
    for _ in 0..300 {
        let g = networks::grid(&mut random);
        cases.push(Case::random(built(&networks::network(&mut random).bytes(), g), &mut random));
    }
    cases
}

#[test]
fn numbers_lie_on_nothing() {
    let mut all = 0;
    for (i, case) in cases().iter().enumerate() {
        let p = &case.picture;
        let (numbers, map) = (p.numbers(), p.map());
        let lines: Vec<_> = ["open", "shut", "delayed", "way"].iter().flat_map(|class| p.lines(class)).collect();
        let dots = [p.circles("places"), p.circles("transit"), p.circles("start"), p.squares("end")].concat();
        for (k, (text, area)) in numbers.iter().enumerate() {
            let at = format!("picture {i}, number {text}");
            assert!(map.holds(area), "{at} is not in the map");
            assert!(!lines.iter().any(|(line, half)| area.grown(*half).meets(*line)), "{at} lies on a road");
            assert!(!dots.iter().any(|d| d.overlaps(area)), "{at} lies on a place");
            assert!(!numbers[..k].iter().any(|(_, other)| other.overlaps(area)), "{at} lies on another");
        }
        all += numbers.len();
    }
    assert!(all > 2000, "{all} numbers only");
}

#[test]
fn few_places_have_their_numbers() {
    for n in [2, 12, 60, 150] {
        let case = Case::new(built(&sample::network(n, 3).to_bytes(), 8), Some((0, n as u32 - 1)));
        let numbers: BTreeSet<u32> = case.picture.numbers().iter().map(|(text, _)| text.parse().unwrap()).collect();
        assert!(numbers.len() * 20 >= n * 19, "{} of {n} numbers", numbers.len());
    }
    let case = Case::new(built(&sample::network(500, 3).to_bytes(), 8), Some((0, 499)));
    let numbers: Vec<String> = case.picture.numbers().into_iter().map(|(text, _)| text).collect();
    assert!(numbers.iter().all(|text| text == "0" || text == "499"), "{numbers:?}");
}

#[test]
fn marks_stand_over_all_else() {
    for case in cases() {
        let Some((s, t)) = case.asked else {
            assert!(case.picture.circles("start").is_empty() && case.picture.squares("end").is_empty());
            continue;
        };
        let p = &case.picture;
        let ((sx, sy), (tx, ty)) = (case.point(s), case.point(t));
        assert!(p.circles("start")[..] == [Bounds::about(sx, sy, 13.0)], "{:?}", p.circles("start"));
        assert!(p.squares("end")[..] == [Bounds::about(tx, ty, 15.0)], "{:?}", p.squares("end"));
        assert_eq!(p.last_classes(4), ["end", "end", "start", "start"]);
        let widest = p.circles("places").into_iter().chain(p.circles("transit")).map(|d| d.right - d.left).fold(0.0, f64::max);
        assert!(widest <= 14.1, "a dot of {widest}");
        for text in [format!("start: place {s}"), format!("end: place {t}")] {
            assert!(p.says(&text), "the legend has no {text}");
        }
    }
}

#[test]
fn total_is_the_time() {
    let mut random = Random(5);
    let (mut far, mut none) = (0, 0);
    for _ in 0..400 {
        let g = networks::grid(&mut random);
        let oracle = built(&networks::network(&mut random).bytes(), g);
        let n = files::node_count(&oracle) as u64;
        let (s, t) = (random.below(n) as u32, random.below(n) as u32);
        let sheet = random.once_in(2).then(|| random_sheet(&oracle, &mut random));
        let mut work = vec![0; files::words_needed(&oracle)];
        let answer = match &sheet {
            Some(sheet) => core::time_under(&oracle, sheet, s, t, &mut work).unwrap(),
            None => core::time(&oracle, s, t, &mut work).unwrap(),
        };
        let case = Case::under(oracle, sheet, Some((s, t)));
        let points = case.points();
        let drawn: Vec<_> = case.picture.lines("way").iter().map(|(line, _)| *line).collect();
        let expected: Vec<_> = case.way.windows(2).map(|w| (points[w[0] as usize], points[w[1] as usize])).collect();
        assert!(drawn == expected, "the way is drawn as {drawn:?}");
        assert_eq!(case.picture.total(), answer.seconds().map(u64::from));
        assert_eq!(case.picture.says("no way between them"), answer.time.is_none());
        if let Some(time) = answer.time {
            let count = |number: u32, what: &str| format!("{number} {what}{}", if number == 1 { "" } else { "s" });
            let passed = format!("way of {}, {}", count(time.roads + 1, "place"), count(time.roads, "road"));
            assert!(case.picture.says(&passed), "the legend has no {passed}");
        }
        far += (answer.kind == core::Kind::Far) as u32;
        none += answer.time.is_none() as u32;
    }
    assert!(far > 50 && none > 20, "{far} far, {none} without a way");
    // The quickest of the open roads side by side counts.
    let plan = Plan { places: vec![(0, 0), (9, 0)], roads: vec![(0, 1, 9), (1, 0, 7), (0, 1, 2), (0, 1, 8)] };
    let total = |lines: Vec<Line>| Case::under(built(&plan.bytes(), 8), Some(sheet::of(lines)), Some((0, 1))).picture.total();
    assert_eq!((total(vec![]), total(vec![Line::Closed(2)]), total(vec![Line::Closed(2), Line::Delayed(1, 2)])), (Some(2), Some(7), Some(8)));
    let plan = Plan { places: vec![(0, 0), (9, 0)], roads: vec![(0, 1, 100_000)] };
    assert!(Case::new(built(&plan.bytes(), 8), Some((0, 1))).picture.says("total 100,000 s (27:46:40)"));
}

#[test]
fn scale_is_that_of_the_places() {
    for case in cases() {
        let (length, metres) = case.picture.scale();
        let leading = format!("{metres:e}");
        assert!(["1e", "2e", "5e"].iter().any(|k| leading.starts_with(k)), "{metres} is not round");
        assert!((80.0..=200.0).contains(&length), "a scale of {length}");
        let (nodes, points) = (files::network(&case.oracle).nodes, case.points());
        for (node, point) in nodes.iter().zip(&points) {
            // The scale is told to a tenth, and so are the points.
            let units = |metres_apart: i32| metres_apart as f64 * length / metres;
            let off = (point.0 - points[0].0 - units(node.0 - nodes[0].0), point.1 - points[0].1 + units(node.1 - nodes[0].1));
            assert!(off.0.abs() < 1.5 && off.1.abs() < 1.5, "{node:?} is drawn at {point:?}");
        }
    }
}

#[test]
fn grid_parts_the_cells() {
    for case in cases() {
        let (nodes, points, g) = (files::network(&case.oracle).nodes, case.points(), files::grid_number(&case.oracle) as i64);
        let lines: Vec<_> = case.picture.lines("grid").into_iter().map(|(line, _)| line).collect();
        let mut upright: Vec<f64> = lines.iter().filter(|(a, b)| a.0 == b.0).map(|(a, _)| a.0).collect();
        let mut level: Vec<f64> = lines.iter().filter(|(a, b)| a.0 != b.0).map(|(a, _)| -a.1).collect();
        upright.sort_by(f64::total_cmp);
        level.sort_by(f64::total_cmp);
        let least = |of: fn(&(i32, i32)) -> i32| nodes.iter().map(of).min().unwrap() as i64;
        let most = |of: fn(&(i32, i32)) -> i32| nodes.iter().map(of).max().unwrap() as i64;
        let (left, bottom) = (least(|n| n.0), least(|n| n.1));
        let spread = (most(|n| n.0) - left).max(most(|n| n.1) - bottom);
        for (node, point) in nodes.iter().zip(&points) {
            for (lines, from, at) in [(&upright, node.0 as i64 - left, point.0), (&level, node.1 as i64 - bottom, -point.1)] {
                let cell = (from * g / (spread + 1)) as usize;
                assert!(lines[cell] <= at + 0.11, "{node:?} is drawn before its cell");
                assert!(lines.get(cell + 1).is_none_or(|next| at <= next + 0.11), "{node:?} is drawn behind its cell");
            }
        }
    }
}

/// Which roads are of a sort. A closure holds over every delay of its road, and among delays the last holds.
fn roads_of(case: &Case, class: &str) -> Vec<(u16, u16)> {
    let (net, lines) = (files::network(&case.oracle), case.sheet.iter().flat_map(|sheet| sheet::lines(sheet)).collect::<Vec<Line>>());
    let is_of = |i: u16| {
        let shut = lines.contains(&Line::Closed(i));
        match class {
            "shut" => shut,
            "open" => !shut,
            _ => !shut && matches!(lines.iter().rev().find(|line| line.road() == i), Some(&Line::Delayed(_, added)) if added > 0),
        }
    };
    let roads = net.edges.iter().enumerate().filter(|(i, _)| is_of(*i as u16));
    roads.map(|(_, e)| (e.first.min(e.second), e.first.max(e.second))).collect()
}

#[test]
fn sorts_of_roads_look_different() {
    let (mut drawn, mut closed_then_delayed) = ([0; 3], 0);
    for case in cases() {
        closed_then_delayed += case.sheet.iter().map(|sheet| sheet::closed_then_delayed(sheet::lines(sheet)).len()).sum::<usize>();
        let (points, p) = (case.points(), &case.picture);
        let sorts = [("open", "open road", false), ("shut", "closed road", true), ("delayed", "delayed road", false)];
        for (k, (class, text, is_dashed)) in sorts.into_iter().enumerate() {
            let roads = roads_of(case, class);
            let lines: BTreeSet<_> = roads.iter().copied().collect();
            let expected = lines.into_iter().map(|(a, b)| (points[a as usize], points[b as usize]));
            assert!(p.lines(class).into_iter().map(|(line, _)| line).eq(expected), "the {class} roads");
            drawn[k] += roads.len();
            let told = k == 0 || case.sheet.is_some();
            let count = format!("{}{} {text}{}", if k == 0 { "" } else { "today: " }, grouped(roads.len()), if roads.len() == 1 { "" } else { "s" });
            assert_eq!(p.says(&count), told, "{count}");
            assert!(!told || p.is_dashed(class) == is_dashed, "{class}");
        }
    }
    assert!(drawn.iter().all(|&count| count > 200) && closed_then_delayed > 100, "{drawn:?}, {closed_then_delayed}");
}

/// With the thousands parted.
fn grouped(number: usize) -> String {
    if number < 1000 { number.to_string() } else { format!("{},{:03}", number / 1000, number % 1000) }
}

#[test]
fn map_follows_the_ground() {
    let size = |places: Vec<(i32, i32)>| {
        let case = Case::new(Plan { places, ..Plan::default() }.without_transit(8), None);
        let (points, map) = (case.points(), case.picture.map());
        let span = |of: fn(&(f64, f64)) -> f64| points.iter().map(of).fold(0.0, f64::max) - points.iter().map(of).fold(f64::MAX, f64::min);
        (case.picture.size(), (span(|p| p.0), span(|p| p.1)), (map.right - map.left, map.bottom - map.top))
    };
    let row = size((0..40).map(|k| (500 * k, 3)).collect());
    assert!(row.0 .0 > 4.0 * row.0 .1 && row.1 .0 > 0.85 * row.0 .0 && row.2 .1 >= 200.0, "{row:?}");
    let column = size((0..40).map(|k| (3, -500 * k)).collect());
    assert!(column.0 .1 > 2.5 * column.0 .0 && column.1 .1 > 0.8 * column.0 .1 && column.2 .0 >= 500.0, "{column:?}");
    let one = size(vec![(-1_000_000, 1_000_000)]);
    assert!(one.0 .0 > 1.5 * one.0 .1 && one.0 .0 < 700.0, "{one:?}");
    let half = size(vec![(0, 0), (-600_000, 300_000)]);
    assert!(half.1 == (1420.0, 710.0) && half.2 == (1520.0, 810.0), "{half:?}");
}

#[test]
fn legend_is_beneath_the_map() {
    for case in cases() {
        let ((width, height), map) = (case.picture.size(), case.picture.map());
        for (right, foot) in case.picture.legend_ends() {
            assert!(right < width && map.bottom + 18.0 < foot && foot < height - 18.0, "text ends at {right}, {foot} of {width}, {height}");
        }
    }
}

#[test]
fn largest_pictures_are_small_and_quick() {
    let mut random = Random(3);
    for (n, roads, most) in [(4096, 6_000, 330_000), (4096, 16_384, 640_000), (150, 16_384, 640_000)] {
        let oracle = tangle(n, roads, &mut random).without_transit(64);
        let way = way(&oracle, None, 0, 1);
        let begun = Instant::now();
        let text = draw::svg(&oracle, None, Some((0, 1)), &way);
        assert!(begun.elapsed() < Duration::from_secs(1), "{n} places and {roads} roads took {:?}", begun.elapsed());
        assert!(text.len() < most, "{n} places and {roads} roads take {} bytes", text.len());
        println!("{n} places, {roads} roads: {} bytes, {:?}", text.len(), begun.elapsed());
    }
}
