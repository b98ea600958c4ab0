//! The limits of document 01: the fewest and the most places and roads, one more than the most, coordinates and times at their ends, the
//! longest way, the longest lists and the largest table.

mod common;

use common::networks::{self, Old, Plan};
use common::reference::{self, bytes_16, bytes_32, value_bytes, Answer, Block, Built, Outcome, Pair, Value, NO_ROADS, NO_WALK, SIDE, WORDS};
use common::{check_audit, check_block, check_build, check_time, check_way, Input, NetworkCase, OracleCase};
use jukesogbi::plain;
use jukesogbi::sample::Random;

const PLACES: usize = 4_096;
const ROADS: usize = 16_384;
const LIMIT: i32 = 1_000_000;

/// 64 x 64 places, one in each cell of a grid of 64.
fn lattice() -> Vec<(i32, i32)> {
    (0..64).flat_map(|row| (0..64).map(move |column| (100 * column, 100 * row))).collect()
}

/// Builds under g with exactly what is needed and with one less of each, audits, and asks these pairs.
fn all_calls(name: &'static str, plan: &Plan, g: u32, pairs: &[(u32, u32)]) -> OracleCase {
    let case = NetworkCase::new(move || name.to_string(), plan.bytes());
    let (words, size) = (case.words(), case.reference.oracle(g).bytes.len());
    assert!(case.build(g, words, size).result.is_ok(), "{name}");
    assert_eq!(case.build(g, words - 1, size).result, Err(14), "{name}");
    assert_eq!(case.build(g, words, size - 1).result, Err(15), "{name}");
    let asked = OracleCase::new(move || format!("{name} under {g}"), case.reference.oracle(g).bytes.clone());
    assert_eq!(asked.audit(words).result, Ok(()), "{name}");
    assert_eq!(asked.audit(words - 1).result, Err(14), "{name}");
    for &(s, t) in pairs {
        let n = plan.places.len();
        asked.time(s, t, words);
        asked.far(s, t);
        asked.list(s);
        asked.list(t);
        asked.way(s, t, words, 2 * n);
    }
    asked
}

// ---- Few places ----

#[test]
fn one_place_under_every_grid() {
    for place in [(0, 0), (LIMIT, -LIMIT), (-LIMIT, LIMIT)] {
        let plan = Plan { places: vec![place], ..Plan::default() };
        for g in 1..=64 {
            let asked = all_calls("one place", &plan, g, &[(0, 0)]);
            assert_eq!(asked.reference.bytes.len(), 81);
            assert_eq!(asked.list(1).result, Err(12));
            assert_eq!(asked.block(&[0; SIDE], &[0; SIDE], 8).result, Ok(Block::of([[(0, 0); SIDE]; SIDE])));
            assert_eq!(asked.block(&[0; SIDE], &[0; SIDE], 7).result, Err(14));
            assert_eq!(asked.block(&[0; SIDE + 1], &[0; SIDE], 8).result, Err(17));
        }
    }
}

#[test]
fn two_places_at_the_corners_under_every_grid() {
    for (a, b) in [((-LIMIT, -LIMIT), (LIMIT, LIMIT)), ((LIMIT, -LIMIT), (-LIMIT, LIMIT)), ((LIMIT, 0), (-LIMIT, 0)), ((0, LIMIT), (0, -LIMIT))] {
        for roads in [vec![(1, 0, 100_000)], vec![]] {
            let plan = Plan { places: vec![a, b], roads };
            for g in 1..=64 {
                let asked = all_calls("two places at the corners", &plan, g, &[(0, 1), (1, 0), (0, 0)]);
                // The two lie in the first and the last column or row.
                assert_eq!(asked.far(0, 1).result.is_ok(), g > 5);
            }
        }
    }
}

/// Places at the ends and in the middle of both coordinates, in one net of roads.
#[test]
fn coordinates_at_their_limits() {
    let ends = [-LIMIT, -LIMIT + 1, -1, 0, 1, LIMIT - 1, LIMIT];
    let places: Vec<(i32, i32)> = ends.iter().flat_map(|&x| [-LIMIT, 0, LIMIT].map(|y| (x, y))).collect();
    let n = places.len() as u16;
    let roads = (0..n).flat_map(|u| [(u, (u + 1) % n, 5), (u, (u + 3) % n, 10)]).collect();
    let plan = Old::of(Plan { places, roads }, [4]).left_out();
    let pairs: Vec<(u32, u32)> = (0..n as u32).flat_map(|s| (0..n as u32).map(move |t| (s, t))).collect();
    for g in [1, 2, 5, 6, 31, 32, 33, 63, 64] {
        all_calls("coordinates at their limits", &plan, g, &pairs);
    }
}

/// Each grid number from 1 to 64 over one network with several ways.
#[test]
fn every_grid_number() {
    let n = 18;
    let places = (0..n).map(|k| (k * 7_001 % 4_000, k * 919)).collect();
    let n = n as u16;
    let roads = (0..n - 1).map(|u| (u, u + 1, 3)).chain((0..n - 2).map(|u| (u + 2, u, 6))).chain((0..n - 3).map(|u| (u, u + 3, 8))).collect();
    let plan = Old::of(Plan { places, roads }, [2, 20]).left_out();
    let pairs: Vec<(u32, u32)> = (0..n as u32).map(|s| (s, (s * 5 + 11) % n as u32)).collect();
    for g in 1..=64 {
        all_calls("every grid number", &plan, g, &pairs);
    }
}

// ---- The most places ----

/// Twelve places from the first to the last.
fn spread_out() -> [u32; SIDE] {
    std::array::from_fn(|i| (i * (PLACES - 1) / (SIDE - 1)) as u32)
}

/// The block of the pairs of two sides of twelve.
fn squares(starts: [u32; SIDE], ends: [u32; SIDE], time: impl Fn(u32, u32) -> Value) -> Block {
    Block::of(starts.map(|s| ends.map(|t| time(s, t))))
}

const NONE: Value = (NO_WALK, NO_ROADS);

fn local(seconds: u64, roads: u64, words: usize) -> Outcome<Answer> {
    Outcome { result: Ok(Answer { far: false, time: Some(Pair { seconds, roads }), pairs: 0 }), zeroed: words, written: vec![] }
}

#[test]
fn most_places_without_roads() {
    let plan = Plan { places: lattice(), ..Plan::default() };
    let last = PLACES as u32 - 1;
    for g in [1, 64] {
        let asked = all_calls("most places, no road", &plan, g, &[(0, last), (last, last), (0, 1)]);
        assert_eq!(asked.words(), 32_768);
        for none in [PLACES as u32, 65_536, u32::MAX] {
            assert_eq!(asked.time(0, none, 32_768).result, Err(12));
            assert_eq!(asked.list(none).result, Err(12));
        }
        // T is 0: far and local alike, there is a time from a place to itself alone.
        assert_eq!(reference::body(&asked.reference.bytes, 5).len(), 0);
        let names = spread_out();
        assert_eq!(asked.block(&names, &names, 32_768).result, Ok(squares(names, names, |s, t| if s == t { (0, 0) } else { NONE })));
    }
}

#[test]
fn most_places_in_one_spot() {
    let plan = Plan { places: vec![(LIMIT, -LIMIT); PLACES], roads: vec![(0, 4_095, 100_000)] };
    all_calls("most places in one spot", &plan, 64, &[(0, 4_095), (1, 2)]);
}

/// A few roads that cross the whole lattice, so that there are transit places, with 'no walk' in most lists' neighbours.
#[test]
fn most_places_with_few_roads() {
    let last = PLACES as u16 - 1;
    let roads = vec![(0, 10, 100_000), (10, 30, 7), (30, last, 1), (0, 30, 100_000), (2_000, last, 9), (1, 2_000, 3)];
    let plan = Old::of(Plan { places: lattice(), roads }, [3]).left_out();
    let asked = all_calls("most places, few roads", &plan, 64, &[(0, last as u32), (last as u32, 1), (10, 30), (5, 4_000)]);
    assert!(reference::body(&asked.reference.bytes, 5).len() > 2);
    assert_eq!(asked.time(0, last as u32, asked.words()).result.unwrap().time, Some(Pair { seconds: 100_008, roads: 3 }));
    // All ends of roads, their neighbours and the last place twice: far and local times, and none.
    let (starts, ends) = ([0, 1, 2, 9, 10, 11, 29, 30, 2_000, 2_001, 4_095, 4_095], [4_095, 30, 10, 1, 0, 2_000, 2, 9, 11, 4_094, 4_095, 64]);
    let Block { times, roads } = asked.block(&starts, &ends, asked.words()).result.unwrap();
    assert_eq!(times[0], [100_008, 100_007, 100_000, 100_020, 0, 100_017, NO_WALK, NO_WALK, NO_WALK, NO_WALK, 100_008, NO_WALK]);
    assert_eq!(roads[0], [3, 2, 1, 5, 0, 4, NO_ROADS, NO_ROADS, NO_ROADS, NO_ROADS, 3, NO_ROADS]);
    assert_eq!((times[10], roads[10]), (times[11], roads[11]));
}

/// The longest least walk and the longest way: a chain of 4,096 places, each road of so many seconds. Under 1 nothing is far. The reference's ways
/// would take too long here, and the answers are plain.
fn the_longest_way(each: u32) {
    let places = (0..PLACES as i32).map(|k| (k, 0)).collect();
    let roads = (0..PLACES as u16 - 1).map(|u| (u, u + 1, each)).collect();
    let plan = Plan { places, roads };
    let input = Input::new(move || format!("chain of roads of {each}"), &plan.without_transit(1));
    let (last, words) = (PLACES as u32 - 1, WORDS * PLACES);
    let answer = |roads: u32| local(roads as u64 * each as u64, roads as u64, words);
    check_time(&input, 0, last, words, &answer(4_095));
    check_time(&input, last, 1, words, &answer(4_094));
    let way = |places: Vec<usize>| Outcome { result: Ok(places.len()), zeroed: words, written: places.into_iter().flat_map(bytes_16).collect() };
    check_way(&input, 0, last, words, 2 * PLACES, &way((0..PLACES).collect()));
    check_way(&input, last, 0, words + 3, 2 * PLACES + 5, &way((0..PLACES).rev().collect()));
    let short = Outcome { result: Err(15), zeroed: words, written: vec![] };
    check_way(&input, 0, last, words, 2 * PLACES - 1, &short);
    check_way(&input, 0, last, words - 1, 2 * PLACES, &Outcome { result: Err(14), zeroed: 0, written: vec![] });
    check_way(&input, 7, 7, words, 2, &way(vec![7]));
    let (starts, mut ends) = (spread_out(), spread_out());
    ends.reverse();
    let block = squares(starts, ends, |s, t| (s.abs_diff(t) * each, s.abs_diff(t)));
    assert_eq!((block.times[0][0], block.roads[0][0]), (4_095 * each, 4_095));
    check_block(&input, &starts, &ends, words, &Outcome { result: Ok(block), zeroed: words, written: vec![] });
    check_block(&input, &starts, &ends, words - 1, &Outcome { result: Err(14), zeroed: 0, written: vec![] });
}

/// With the most seconds, 409,500,000 in all.
#[test]
fn the_longest_way_of_the_longest_roads() {
    the_longest_way(100_000);
}

/// With none: what is left falls in roads alone.
#[test]
fn the_longest_way_of_no_time() {
    the_longest_way(0);
}

/// A chain long enough for great times in the lists and the table, short enough to build.
#[test]
fn a_long_chain() {
    let n = 120;
    for each in [100_000, 0] {
        let places = (0..n).map(|k| (k * 100, 0)).collect();
        let roads = (0..n as u16 - 1).map(|u| (u + 1, u, each)).collect();
        let plan = Plan { places, roads };
        let last = n as u32 - 1;
        let asked = all_calls("a long chain", &plan, 64, &[(0, last), (last, 0), (60, 66), (60, 61)]);
        assert_eq!(asked.far(0, last).result.unwrap().time, Some(Pair { seconds: 119 * each as u64, roads: 119 }));
    }
}

/// The longest chain, built: its lists and its table have the greatest numbers of roads and of seconds that there are. The bytes are plain Rust's, and those
/// of the last entry are known.
#[test]
fn the_longest_chain_built() {
    for each in [100_000, 0] {
        let places = (0..PLACES as i32).map(|k| (100 * k, 0)).collect();
        let plan = Plan { places, roads: (0..PLACES as u16 - 1).map(|u| (u, u + 1, each)).collect() };
        let bytes = plain::build(&plan.bytes(), 64);
        let (last, words) = (PLACES as u32 - 1, WORDS * PLACES);
        let network = NetworkCase::new(move || format!("the longest chain, of {each}"), plan.bytes());
        let values = Built { length: bytes.len(), transit: reference::body(&bytes, 5).len() / 2 };
        check_build(&network.input, 64, words, bytes.len(), &Outcome { result: Ok(values), zeroed: words, written: bytes.clone() });
        // A transit place lies two cells off at the most, so the farthest two lie nearly as far apart as the ends.
        let table = reference::body(&bytes, 7);
        let greatest = table.chunks(6).map(|value| reference::value_at(value, 0)).max().unwrap();
        assert!(greatest.1 > 3_700 && greatest.0 == greatest.1 * each, "{greatest:?}");
        let asked = OracleCase::new(move || format!("the longest chain, of {each}, under 64"), bytes);
        assert_eq!(asked.far(0, last).result.unwrap().time, Some(Pair { seconds: 4_095 * each as u64, roads: 4_095 }));
        check_audit(&asked.input, words, &Outcome { result: Ok(()), zeroed: words, written: vec![] });
    }
}

/// A star of 4,096 places: every place but the middle one is settled from it.
#[test]
fn a_great_star() {
    let roads = (1..PLACES as u16).map(|u| (u, 0, u as u32)).collect();
    let plan = Plan { places: lattice(), roads };
    let input = Input::new(|| "star".to_string(), &plan.without_transit(1));
    let words = WORDS * PLACES;
    check_time(&input, 4_094, 4_095, words, &local(4_094 + 4_095, 2, words));
    let way = [4_094, 0, 4_095].into_iter().flat_map(bytes_16).collect();
    check_way(&input, 4_094, 4_095, words, 6, &Outcome { result: Ok(3), zeroed: words, written: way });
}

/// Many more names than twelve, among them as many as a cut to 8 or 16 bits would make few: 12 looks at all of them, and 17 at their number.
#[test]
fn long_sides() {
    let asked = OracleCase::new(|| "Line".to_string(), networks::line().without_transit(1));
    for count in [14, 256 + 1, 256 + 12, 65_536 + 1, 65_536 + 12, 1_000_000] {
        let sound: Vec<u32> = (0..count).map(|i| i % 3).collect();
        let mut wrong = sound.clone();
        wrong[count as usize - 1] = 3;
        for (names, rule) in [(&sound, 17), (&wrong, 12)] {
            assert_eq!(asked.block(names, &[0], 24).result, Err(rule));
            assert_eq!(asked.block(&[0], names, 24).result, Err(rule));
            assert_eq!(asked.block(names, names, 0).result, Err(rule));
        }
    }
}

#[test]
fn one_place_too_many() {
    for n in [0, PLACES, PLACES + 1, PLACES + 2, 8_192, 65_536 + 3] {
        let plan = Plan { places: vec![(0, 0); n], ..Plan::default() };
        let expected = if n == PLACES { None } else { Some(3) };
        let case = NetworkCase::new(move || format!("{n} places"), plan.bytes());
        assert_eq!(case.build(1, WORDS * PLACES, 200_000).result.err(), expected);
        // As an oracle, too; and 4 is not looked for before 3.
        let asked = OracleCase::new(move || format!("oracle of {n} places"), plan.without_transit(1));
        assert_eq!(asked.audit(WORDS * n).result.err(), expected);
        assert_eq!(asked.list(0).result.err(), expected);
        assert_eq!(asked.block(&[], &[], 0).result.err(), expected.or(Some(17)));
        assert_eq!(asked.far(0, 0).result.err(), expected.or(Some(13)));
    }
    let wrong = Plan { places: vec![(LIMIT + 1, 0); PLACES + 1], ..Plan::default() };
    let case = NetworkCase::new(|| "too many places, all outside".to_string(), wrong.bytes());
    assert_eq!(case.build(0, 0, 0).result, Err(3));
}

// ---- The most roads ----

/// All roads between two places, side by side, or all but some; the quickest of them decides.
#[test]
fn most_roads_side_by_side() {
    let seconds = |i: usize| 100_000 - (i * 7_919 % ROADS) as u32;
    let roads: Vec<(u16, u16, u32)> = (0..ROADS).map(|i| (i as u16 % 2, 1 - i as u16 % 2, seconds(i))).collect();
    let least = (0..ROADS).min_by_key(|&i| seconds(i)).unwrap() as u16;
    for (name, left_out) in [
        ("16,384 roads side by side", vec![]),
        ("16,384 roads side by side but the quickest", vec![least]),
        ("16,384 roads side by side but every second", (0..ROADS as u16).filter(|i| i % 2 == 0).collect()),
        ("16,384 roads side by side, the last alone", (0..ROADS as u16 - 1).collect()),
    ] {
        let plan = Old::of(Plan { places: vec![(0, 0), (60, 0)], roads: roads.clone() }, left_out).left_out();
        all_calls(name, &plan, 6, &[(0, 1), (1, 0), (1, 1)]);
        all_calls(name, &plan, 5, &[(0, 1)]);
    }
}

/// 16,384 roads over few places at random, so that nearly all of them serve nothing.
#[test]
fn most_roads_at_random() {
    let mut random = Random(5);
    let n = 30;
    let places: Vec<(i32, i32)> = (0..n).map(|k| (k * 100, random.below(3_000) as i32)).collect();
    let near = |random: &mut Random| {
        let a = random.below(n as u64) as u16;
        let b = (a + 1 + random.below(4) as u16).min(n as u16 - 1);
        if a == b { (a, a - 1) } else { (a, b) }
    };
    let roads = (0..ROADS).map(|_| near(&mut random)).collect::<Vec<_>>().into_iter().map(|(a, b)| (a, b, 1 + random.below(100_000) as u32)).collect();
    let plan = Plan { places, roads };
    let pairs: Vec<(u32, u32)> = (0..n as u32).map(|s| (s, n as u32 - 1 - s)).collect();
    all_calls("16,384 roads at random", &plan, 12, &pairs);
}

#[test]
fn one_road_too_many() {
    for count in [ROADS, ROADS + 1, 2 * ROADS, 65_536 + 2] {
        let plan = Plan { roads: vec![(0, 1, 1); count], ..networks::line() };
        let expected = if count == ROADS { None } else { Some(5) };
        let case = NetworkCase::new(move || format!("{count} roads"), plan.bytes());
        assert_eq!(case.build(6, 24, 1_000_000).result.err(), expected);
        let asked = OracleCase::new(move || format!("oracle of {count} roads"), plan.without_transit(6));
        assert_eq!(asked.list(0).result.err(), expected);
    }
    // 6 and 7 are not looked for before 5.
    let wrong = Old::of(Plan { roads: vec![(9, 9, 100_001); ROADS + 1], ..networks::line() }, [1, 0]);
    let case = NetworkCase::new(|| "too many roads, all wrong".to_string(), wrong.bytes());
    assert_eq!(case.build(0, 0, 0).result, Err(5));
}

/// A road at fault at the end of the longest roads body, and a closed number at the end of the longest closed list, which is refused by 21 without it.
#[test]
fn faults_at_the_end_of_long_bodies() {
    let sound = Old::of(Plan { roads: vec![(0, 1, 1); ROADS], ..networks::line() }, 0..ROADS as u16);
    let rule = |bytes: Vec<u8>| {
        let case = NetworkCase::new(|| "a fault at the end".to_string(), bytes);
        case.build(6, 24, 1_000_000).result.err()
    };
    assert_eq!((rule(sound.plan.bytes()), rule(sound.bytes())), (None, Some(21)));
    let mut old = sound.clone();
    old.plan.roads[ROADS - 1].1 = 3;
    assert_eq!((rule(old.plan.bytes()), rule(old.bytes())), (Some(6), Some(6)));
    for last in [ROADS as u16, ROADS as u16 - 2] {
        let mut old = sound.clone();
        old.closed[ROADS - 1] = last;
        assert_eq!(rule(old.bytes()), Some(7), "{last}");
    }
    let mut plan = Plan { places: vec![(0, 0); PLACES], ..Plan::default() };
    plan.places[PLACES - 1].1 = LIMIT + 1;
    let case = NetworkCase::new(|| "a coordinate at fault at the end".to_string(), plan.bytes());
    assert_eq!(case.build(1, WORDS * PLACES, 0).result, Err(4));
}

// ---- The largest table ----

/// All places are transit places and the two ends of the lattice have them all in their lists: 16,777,216 pairs tried. Such an oracle is
/// well-shaped though nothing builds it.
#[test]
fn the_largest_table() {
    let plan = Plan { places: lattice(), ..Plan::default() };
    let mut random = Random(11);
    let mut value = || value_bytes(if random.once_in(9) { NONE } else { (1_000 + random.below(400_000_000) as u32, random.below(4_096) as u32) });
    let (mut starts, mut lists) = (Vec::new(), Vec::new());
    for u in 0..PLACES {
        starts.extend(bytes_32(4 * PLACES + lists.len()));
        let count = if u == 0 || u == PLACES - 1 { PLACES } else { u % 3 };
        lists.extend(bytes_16(count));
        for i in 0..count {
            lists.extend(bytes_16(i));
            lists.extend(value());
        }
    }
    let table = (0..PLACES * PLACES).flat_map(|_| value()).collect();
    let [places, roads, closed] = plan.bodies();
    let transit = (0..PLACES).flat_map(bytes_16).collect();
    let file = reference::file(&[places, roads, closed, bytes_16(64).to_vec(), transit, [starts, lists].concat(), table]);
    let asked = OracleCase::new(|| "the largest table".to_string(), file);
    let (last, words) = (PLACES as u32 - 1, WORDS * PLACES);
    assert_eq!(asked.far(0, last).result.unwrap().pairs, 16_777_216);
    assert_eq!(asked.time(last, 0, words).result.unwrap().pairs, 16_777_216);
    assert!(asked.block(&[last, 0, 0], &[0, 63, last], words).result.is_ok());
    asked.far(0, 63);
    asked.list(last);
    assert_eq!(asked.audit(words).result, Err(16));
    assert_eq!(asked.way(0, last, words, 0).result, Ok(0));
    // The last value out of range, in its seconds and in its roads.
    let file = asked.reference.bytes.clone();
    drop(asked);
    for value in [(409_500_001, 0), (0, 4_096), (NO_WALK, 0), (0, NO_ROADS)] {
        let mut file = file.clone();
        let size = file.len();
        file[size - 6..].copy_from_slice(&value_bytes(value));
        let asked = OracleCase::new(|| "the largest table, its last value out of range".to_string(), file);
        assert_eq!(asked.list(0).result, Err(11), "{value:?}");
    }
}
