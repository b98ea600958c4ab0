//! The trials of document 01, in its order, through the core's safe functions and held to the numbers in its text; then blocks of its examples,
//! and the mistakes it warns of.

mod common;

use common::networks::{self, Plan};
use common::sheets::SheetCase;
use common::{NetworkCase, OracleCase};
use jukesogbi::core::{self, Answer, Built, Kind, Refused, Time};
use jukesogbi::{files, listing};

fn far(seconds: u32, roads: u32, pairs: u32) -> Result<Answer, Refused> {
    Ok(Answer { time: Some(Time { seconds, roads }), kind: Kind::Far, pairs })
}

fn no_far(pairs: u32) -> Result<Answer, Refused> {
    Ok(Answer { time: None, kind: Kind::Far, pairs })
}

fn local(seconds: u32, roads: u32) -> Result<Answer, Refused> {
    Ok(Answer { time: Some(Time { seconds, roads }), kind: Kind::Local, pairs: 0 })
}

const NO_LOCAL: Result<Answer, Refused> = Ok(Answer { time: None, kind: Kind::Local, pairs: 0 });

/// Builds with as much as is needed.
fn build(plan: &Plan, g: u32) -> Result<(Built, Vec<u8>), Refused> {
    let network = plan.bytes();
    let mut out = vec![0; files::most_room(&network)];
    let built = core::build(&network, g, &mut vec![0; files::words_needed(&network)], &mut out)?;
    out.truncate(built.size);
    Ok((built, out))
}

fn oracle(plan: &Plan, g: u32) -> Vec<u8> {
    build(plan, g).expect("the network is accepted").1
}

fn time(oracle: &[u8], s: u32, t: u32) -> Result<Answer, Refused> {
    core::time(oracle, s, t, &mut vec![0; files::words_needed(oracle)])
}

fn way(oracle: &[u8], s: u32, t: u32) -> Vec<u16> {
    let mut out = vec![0; 100];
    let count = core::way(oracle, s, t, &mut vec![0; files::words_needed(oracle)], &mut out).expect("the way is given");
    out[..2 * count].chunks(2).map(|c| files::read16(c, 0)).collect()
}

#[test]
fn trial_1_line_has_one_transit_place() {
    let (built, bytes) = build(&networks::line(), 6).unwrap();
    assert_eq!(built, Built { size: 149, transit: 1 });
    assert_eq!(files::transit_nodes(&bytes), [1]);
    // Columns 0, 2, 5: 0 and 2 are far, the other pairs local.
    for (s, t, is_far) in [(0, 1, false), (1, 2, false), (0, 2, true)] {
        assert_eq!(core::far(&bytes, s, t).is_ok(), is_far);
    }
    core::audit(&bytes, &mut [0; 24]).unwrap();
}

/// The 149 bytes of Line, written out by hand from the document's layout.
#[test]
fn trial_1_line_byte_by_byte() {
    #[rustfmt::skip]
    let expected = [
        2, 7,
        1, 65, 0, 0, 0, 24, 0, 0, 0,
        2, 89, 0, 0, 0, 16, 0, 0, 0,
        3, 105, 0, 0, 0, 0, 0, 0, 0,
        4, 105, 0, 0, 0, 2, 0, 0, 0,
        5, 107, 0, 0, 0, 2, 0, 0, 0,
        6, 109, 0, 0, 0, 34, 0, 0, 0,
        7, 143, 0, 0, 0, 6, 0, 0, 0,
        // Places (0,0), (30,0), (60,0).
        0, 0, 0, 0, 0, 0, 0, 0, 30, 0, 0, 0, 0, 0, 0, 0, 60, 0, 0, 0, 0, 0, 0, 0,
        // Roads 0-1 of 7 and 1-2 of 9; an empty body 3; g 6; transit place 1.
        0, 0, 1, 0, 7, 0, 0, 0, 1, 0, 2, 0, 9, 0, 0, 0,
        6, 0,
        1, 0,
        // Starts, then the lists, each entry with its index, seconds and roads: place 1 has none, since no road leaves the outer square of its cell.
        12, 0, 0, 0, 22, 0, 0, 0, 24, 0, 0, 0,
        1, 0, 0, 0, 7, 0, 0, 0, 1, 0,
        0, 0,
        1, 0, 0, 0, 9, 0, 0, 0, 1, 0,
        0, 0, 0, 0, 0, 0,
    ];
    assert_eq!(oracle(&networks::line(), 6), expected);
}

#[test]
fn trial_2_line_0_to_2() {
    let line = oracle(&networks::line(), 6);
    assert_eq!(time(&line, 0, 2), far(16, 2, 1));
    assert_eq!(core::far(&line, 0, 2), far(16, 2, 1));
    assert_eq!(core::far(&line, 2, 0), far(16, 2, 1));
}

#[test]
fn trial_3_fork_0_to_4() {
    let fork = oracle(&networks::fork(), 6);
    assert_eq!(time(&fork, 0, 4), far(11, 3, 4));
    assert_eq!(core::far(&fork, 0, 4), far(11, 3, 4));
    // Access places 1 and 2 on both sides.
    assert_eq!(files::transit_nodes(&fork), [1, 2]);
    assert_eq!(core::list(&fork, 0).unwrap(), [2, 0, 0, 0, 5, 0, 0, 0, 1, 0, 1, 0, 5, 0, 0, 0, 1, 0]);
    assert_eq!(core::list(&fork, 4).unwrap(), [2, 0, 0, 0, 6, 0, 0, 0, 2, 0, 1, 0, 6, 0, 0, 0, 2, 0]);
}

#[test]
fn trial_4_fork_way_0_to_4() {
    assert_eq!(way(&oracle(&networks::fork(), 6), 0, 4), [0, 1, 3, 4]);
}

#[test]
fn trial_5_fork_0_to_3_is_local() {
    let fork = oracle(&networks::fork(), 6);
    assert_eq!(time(&fork, 0, 3), local(10, 2));
    assert_eq!(core::far(&fork, 0, 3), Err(Refused(13)));
}

/// Worked with the road left out, as T-06 has it.
#[test]
fn trial_6_fork_with_road_4_left_out() {
    let without = oracle(&networks::fork_without_4(), 6);
    assert_eq!(time(&without, 0, 4), no_far(0));
    assert_eq!(core::far(&without, 0, 4), no_far(0));
    assert_eq!(way(&without, 0, 4), []);
    // As it was, the network is refused, and so is its oracle.
    let closed = networks::fork_closed();
    assert_eq!(core::build(&closed.bytes(), 6, &mut [0; 40], &mut [0; 500]), Err(Refused(21)));
    assert_eq!(time(&closed.oracle(6), 0, 4), Err(Refused(21)));
}

#[test]
fn trial_7_line_1_to_1() {
    let line = oracle(&networks::line(), 6);
    assert_eq!(time(&line, 1, 1), local(0, 0));
    assert_eq!(way(&line, 1, 1), [1]);
}

#[test]
fn trial_8_one_place() {
    let (built, bytes) = build(&networks::one_place(), 64).unwrap();
    assert_eq!(built, Built { size: 81, transit: 0 });
    assert_eq!(time(&bytes, 0, 0), local(0, 0));
    assert_eq!(core::list(&bytes, 0).unwrap(), [0, 0]);
}

/// Columns are not handed back, so they are seen by what is far: the same four places with two more behind them, under a grid that keeps the
/// cells' width, are far from those where their column is 0 and local where it is 1.
#[test]
fn trial_9_columns_of_negative_and_positive_x() {
    // x of -7, 0, 1, 8 under 2: spread 15, cells of 8 metres: -7..0 and 1..8.
    let (built, bytes) = build(&networks::four_in_a_row(), 2).unwrap();
    assert_eq!(built.transit, 0);
    assert!((0..4).all(|s| (0..4).all(|t| core::far(&bytes, s, t) == Err(Refused(13)))));
    // 48 metres and so 6 cells of 8: columns 0, 0, 1, 1, 5, 5.
    let mut longer = networks::four_in_a_row();
    longer.places.extend([(33, 0), (40, 0)]);
    let bytes = oracle(&longer, 6);
    for (s, is_far) in [(0, true), (1, true), (2, false), (3, false)] {
        for t in [4, 5] {
            assert_eq!(core::far(&bytes, s, t).is_ok(), is_far, "{s} to {t}");
            assert_eq!(core::far(&bytes, t, s).is_ok(), is_far, "{t} to {s}");
        }
    }
}

/// 0 passes since T-07.
#[test]
fn trial_10_seconds() {
    for (seconds, expected) in [(100_000, None), (0, None), (100_001, Some(6))] {
        let mut plan = networks::line();
        plan.roads[0].2 = seconds;
        assert_eq!(build(&plan, 6).err().map(|r| r.0), expected, "{seconds} seconds");
    }
}

#[test]
fn trial_11_coordinates() {
    for (x, expected) in [(-1_000_000, None), (-1_000_001, Some(4)), (1_000_000, None), (1_000_001, Some(4))] {
        let mut plan = networks::line();
        plan.places[0].0 = x;
        assert_eq!(build(&plan, 6).err().map(|r| r.0), expected, "x of {x}");
    }
}

#[test]
fn trial_12_words_and_output() {
    let case = NetworkCase::new(|| "Line".to_string(), networks::line().bytes());
    assert!(case.build(6, 24, 149).result.is_ok());
    assert_eq!(case.build(6, 23, 149).result, Err(14));
    assert_eq!(case.build(6, 24, 148).result, Err(15));
    let asked = OracleCase::new(|| "oracle of Line".to_string(), oracle(&networks::line(), 6));
    for (words, rule) in [(24, None), (23, Some(14))] {
        assert_eq!(asked.time(0, 2, words).result.err(), rule);
        assert_eq!(asked.time(0, 1, words).result.err(), rule);
        assert_eq!(asked.audit(words).result.err(), rule);
        assert_eq!(asked.way(0, 2, words, 6).result.err(), rule);
        assert_eq!(asked.block(&[0], &[2], words).result.err(), rule);
    }
    assert_eq!(asked.way(0, 2, 24, 5).result, Err(15));
}

#[test]
fn the_listing_of_line() {
    let mut text = Vec::new();
    listing::write(&oracle(&networks::line(), 6), &mut text).unwrap().unwrap();
    assert_eq!(String::from_utf8(text).unwrap(), "places 3 transit 1\n0 1 7 local\n0 2 16 far\n1 2 9 local\n");
    let mut damaged = oracle(&networks::line(), 6);
    let transit = damaged.len() - 6 - 34 - 2;
    damaged[transit] = 3;
    let mut text = Vec::new();
    assert_eq!(listing::write(&damaged, &mut text).unwrap(), Err(Refused(9)));
    assert_eq!(String::from_utf8(text).unwrap(), "refused 9\n");
}

// ---- Blocks ----

/// The block with as many words as are needed, cut to the rows and columns in use: seconds and roads. The rest of it must be zero.
fn block(oracle: &[u8], starts: &[u32], ends: &[u32]) -> Vec<Vec<Option<(u32, u32)>>> {
    let block = core::block(oracle, starts, ends, &mut vec![0; files::words_needed(oracle)]).expect("the block is given");
    for (i, row) in block.times.iter().zip(&block.roads).enumerate() {
        let unused = if i < starts.len() { ends.len() } else { 0 }..;
        assert!(row.0[unused.clone()].iter().chain(&row.1[unused]).all(|&square| square == 0), "row {i} is {row:?}");
    }
    let square = |i: usize, j: usize| block.time(i, j).map(|time| (time.seconds, time.roads));
    (0..starts.len()).map(|i| (0..ends.len()).map(|j| square(i, j)).collect()).collect()
}

/// Line has one walk between two places, so its roads' seconds are added: 7 from 0 to 1, 9 from 1 to 2, and 7 + 9 from 0 to 2, the far pair.
#[test]
fn block_of_line() {
    let times = block(&oracle(&networks::line(), 6), &[0, 1, 2, 0], &[2, 1, 0]);
    let expected = [[(16, 2), (7, 1), (0, 0)], [(9, 1), (0, 0), (7, 1)], [(0, 0), (9, 1), (16, 2)], [(16, 2), (7, 1), (0, 0)]];
    assert_eq!(times, expected.map(|row| row.map(Some).to_vec()));
}

/// On Fork 0, 1, 3 and 2 lie on a round of roads of 5 each, so neighbours on it are 5 apart and opposite places 10; 4 is 1 beyond 3.
#[test]
fn block_of_fork() {
    // Both sides are lent from the same memory.
    let names = [0, 1, 2, 3, 4, 4];
    let times = block(&oracle(&networks::fork(), 6), &names[..5], &names);
    let expected = [
        [(0, 0), (5, 1), (5, 1), (10, 2), (11, 3), (11, 3)],
        [(5, 1), (0, 0), (10, 2), (5, 1), (6, 2), (6, 2)],
        [(5, 1), (10, 2), (0, 0), (5, 1), (6, 2), (6, 2)],
        [(10, 2), (5, 1), (5, 1), (0, 0), (1, 1), (1, 1)],
        [(11, 3), (6, 2), (6, 2), (1, 1), (0, 0), (0, 0)],
    ];
    assert_eq!(times, expected.map(|row| row.map(Some).to_vec()));
}

/// Without road 4 no road leads to 4: it has a walk to itself alone, and the round is as it was.
#[test]
fn block_of_fork_without_road_4() {
    let times = block(&oracle(&networks::fork_without_4(), 6), &[0, 4, 3], &[4, 3, 2]);
    let (none, here, next, opposite) = (None, Some((0, 0)), Some((5, 1)), Some((10, 2)));
    assert_eq!(times, [[none, opposite, next], [here, none, none], [none, here, next]]);
}

// ---- Roads of 0 seconds ----

/// Columns 0, 2, 3, 5. From column 0 the road of 7 leaves its cell (crossing place 0), that of 0 the inner square (1) and that of 9 the outer (2); from column
/// 5 these are 2, 1 and 0. Place 1 is between on both sides, and is the one transit place: 7 in 1 road from 0, and 9 in 2 roads from 3.
#[test]
fn junction_of_two_places() {
    let (built, bytes) = build(&networks::junction(), 6).unwrap();
    assert_eq!((built, files::transit_nodes(&bytes)), (Built { size: 171, transit: 1 }, vec![1]));
    assert_eq!(core::list(&bytes, 0).unwrap(), [1, 0, 0, 0, 7, 0, 0, 0, 1, 0]);
    assert_eq!(core::list(&bytes, 3).unwrap(), [1, 0, 0, 0, 9, 0, 0, 0, 2, 0]);
    for (s, t) in [(0, 3), (3, 0)] {
        assert_eq!((time(&bytes, s, t), core::far(&bytes, s, t)), (far(16, 3, 1), far(16, 3, 1)));
    }
    // Within it and about it, by ways that go over it once or not at all.
    for (s, t, answer, places) in [
        (1, 2, local(0, 1), &[1, 2][..]), (2, 1, local(0, 1), &[2, 1]), (1, 1, local(0, 0), &[1]), (0, 2, local(7, 2), &[0, 1, 2]),
        (3, 1, local(9, 2), &[3, 2, 1]), (1, 0, local(7, 1), &[1, 0]),
    ] {
        assert_eq!((time(&bytes, s, t), &way(&bytes, s, t)[..]), (answer, places), "{s} to {t}");
    }
    assert_eq!((way(&bytes, 0, 3), way(&bytes, 3, 0)), (vec![0, 1, 2, 3], vec![3, 2, 1, 0]));
    let times = block(&bytes, &[0, 2], &[3, 1, 2]);
    assert_eq!(times, [[(16, 3), (7, 1), (7, 2)], [(9, 1), (0, 1), (0, 0)]].map(|row| row.map(Some).to_vec()));
}

/// Columns 0, 2, 2, 3, 5. Two roads of the ring leave the inner square on either side, 3-1 (crossing place 1) and 2-3 (2). By seconds alone both would be
/// access places; the walk by 2 has a road more, so 1 alone is one. A next place by seconds alone could go round for ever.
#[test]
fn ring_of_three_places() {
    let (built, bytes) = build(&networks::ring(), 6).unwrap();
    assert_eq!((built, files::transit_nodes(&bytes)), (Built { size: 201, transit: 1 }, vec![1]));
    assert_eq!(core::list(&bytes, 0).unwrap(), [1, 0, 0, 0, 7, 0, 0, 0, 1, 0]);
    assert_eq!(core::list(&bytes, 4).unwrap(), [1, 0, 0, 0, 9, 0, 0, 0, 2, 0]);
    for (s, t, answer, places) in [
        (0, 4, far(16, 3, 1), &[0, 1, 3, 4][..]), (4, 0, far(16, 3, 1), &[4, 3, 1, 0]), (1, 2, local(0, 1), &[1, 2]), (2, 1, local(0, 1), &[2, 1]),
        (1, 3, local(0, 1), &[1, 3]), (3, 2, local(0, 1), &[3, 2]), (2, 2, local(0, 0), &[2]), (0, 3, local(7, 2), &[0, 1, 3]), (0, 2, local(7, 2), &[0, 1, 2]),
        (4, 2, local(9, 2), &[4, 3, 2]), (2, 0, local(7, 2), &[2, 1, 0]),
    ] {
        assert_eq!((time(&bytes, s, t), &way(&bytes, s, t)[..]), (answer, places), "{s} to {t}");
    }
    let times = block(&bytes, &[1, 2, 3], &[1, 2, 3]);
    assert_eq!(times, [[(0, 0), (0, 1), (0, 1)], [(0, 1), (0, 0), (0, 1)], [(0, 1), (0, 1), (0, 0)]].map(|row| row.map(Some).to_vec()));
}

/// Seconds come first: the single road of 5 is none of the least walks. Of the two of 4 the one with fewer roads is, though the other comes first by place
/// numbers.
#[test]
fn ties_by_fewer_roads() {
    let bytes = oracle(&networks::tie(), 1);
    assert_eq!((time(&bytes, 0, 3), way(&bytes, 0, 3)), (local(4, 2), vec![0, 4, 3]));
    assert_eq!((time(&bytes, 3, 0), way(&bytes, 3, 0)), (local(4, 2), vec![3, 4, 0]));
    assert_eq!((time(&bytes, 0, 2), way(&bytes, 0, 2)), (local(2, 2), vec![0, 1, 2]));
    assert_eq!((time(&bytes, 2, 4), way(&bytes, 2, 4)), (local(3, 3), vec![2, 1, 0, 4]));
}

/// The oracle of Line as it was in edition 1, which has no roads in bodies 6 and 7.
#[test]
fn an_oracle_of_edition_1() {
    #[rustfmt::skip]
    let old = [
        1, 7,
        1, 65, 0, 0, 0, 24, 0, 0, 0, 2, 89, 0, 0, 0, 16, 0, 0, 0, 3, 105, 0, 0, 0, 0, 0, 0, 0, 4, 105, 0, 0, 0, 2, 0, 0, 0,
        5, 107, 0, 0, 0, 2, 0, 0, 0, 6, 109, 0, 0, 0, 30, 0, 0, 0, 7, 139, 0, 0, 0, 4, 0, 0, 0,
        0, 0, 0, 0, 0, 0, 0, 0, 30, 0, 0, 0, 0, 0, 0, 0, 60, 0, 0, 0, 0, 0, 0, 0,
        0, 0, 1, 0, 7, 0, 0, 0, 1, 0, 2, 0, 9, 0, 0, 0,
        6, 0,
        1, 0,
        12, 0, 0, 0, 20, 0, 0, 0, 22, 0, 0, 0, 1, 0, 0, 0, 7, 0, 0, 0, 0, 0, 1, 0, 0, 0, 9, 0, 0, 0,
        0, 0, 0, 0,
    ];
    assert_eq!(old.len(), 143);
    let with_edition = |edition: u8| [&[edition], &oracle(&networks::line(), 6)[1..]].concat();
    for bytes in [old.to_vec(), with_edition(0), with_edition(1), with_edition(3)] {
        let edition = bytes[0];
        let case = OracleCase::new(move || format!("an oracle of edition {edition}"), bytes.clone());
        // 12, 13, 14, 15 and 17 are broken too.
        assert_eq!(case.audit(0).result, Err(1));
        assert_eq!((case.time(9, 9, 0).result, case.far(0, 9).result, case.list(9).result), (Err(1), Err(1), Err(1)));
        assert_eq!((case.way(0, 9, 0, 0).result, case.block(&[], &[9], 0).result, case.wages(&[9], 0, 0).result), (Err(1), Err(1), Err(1)));
        assert_eq!(case.open(0).err(), Some(1));
        let sheet = SheetCase::new(&case, || "no sheet".to_string(), Vec::new());
        assert_eq!((sheet.time(0, 9, 0).result, sheet.way(0, 9, 0, 0).result), (Err(1), Err(1)));
        let mut text = Vec::new();
        assert_eq!(listing::write(&bytes, &mut text).unwrap(), Err(Refused(1)));
        assert_eq!(String::from_utf8(text).unwrap(), "refused 1\n");
    }
    // Networks and sheets keep their edition: as they were, they are accepted, and edition 2 is none.
    let mut network = networks::line().bytes();
    assert_eq!(network[0], 1);
    network[0] = 2;
    assert_eq!(core::build(&network, 6, &mut [0; 24], &mut [0; 149]), Err(Refused(1)));
}

// ---- Mistakes that a map desk would believe ----

/// One of two equally quick ways kept on each side would make 21 of 11; whichever is kept, both ways round must give 11.
#[test]
fn mistake_1_ties_are_all_kept() {
    let fork = oracle(&networks::fork(), 6);
    assert_eq!(core::far(&fork, 0, 4), far(11, 3, 4));
    assert_eq!(core::far(&fork, 4, 0), far(11, 3, 4));
}

/// The end with the smaller number is taken, even where it lies outside the square: with Line's numbers turned round, the far end is chosen.
#[test]
fn mistake_3_the_smaller_number_crosses() {
    // 2 - 1 - 0 along the ground, in columns 0, 2, 5. The road 0-1 leaves the inner square about column 0, and its smaller end is 0, in column 5.
    let turned = Plan { places: vec![(60, 0), (30, 0), (0, 0)], roads: vec![(0, 1, 7), (1, 2, 9)] };
    let bytes = oracle(&turned, 6);
    assert_eq!(files::transit_nodes(&bytes), [0]);
    assert_eq!(core::list(&bytes, 2).unwrap(), [1, 0, 0, 0, 16, 0, 0, 0, 2, 0]);
    assert_eq!(core::list(&bytes, 0).unwrap(), [1, 0, 0, 0, 0, 0, 0, 0, 0, 0]);
    assert_eq!(core::far(&bytes, 0, 2), far(16, 2, 1));
}

/// The last place stays inside the grid: divided by the spread itself, it would lie in column g.
#[test]
fn mistake_4_the_last_place_is_in_the_grid() {
    // 0, 50 and 60 under 6: columns 0, 4, 5, so that 0 and 1 are local.
    let plan = Plan { places: vec![(0, 0), (50, 0), (60, 0)], roads: vec![(0, 1, 1), (1, 2, 1)] };
    let bytes = oracle(&plan, 6);
    assert_eq!(time(&bytes, 0, 1), local(1, 1));
    assert_eq!(time(&bytes, 0, 2).map(|a| a.kind), Ok(Kind::Far));
}

/// 'No walk' is not added as a time: the two lines have entries of 'no walk' in their lists.
#[test]
fn mistake_5_no_walk_is_not_added() {
    let bytes = oracle(&networks::two_lines(), 6);
    assert_eq!(time(&bytes, 0, 2), far(16, 2, 4));
    assert_eq!(time(&bytes, 3, 5), far(100_002, 2, 4));
    assert_eq!(time(&bytes, 0, 5), no_far(4));
    assert_eq!(time(&bytes, 0, 3), NO_LOCAL);
    assert_eq!(way(&bytes, 0, 5), []);
}
