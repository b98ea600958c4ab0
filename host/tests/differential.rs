//! Random networks: every call of the core on them against the reference, in what it hands back and in every lent word and byte.
//! `JUKESOGBI_NETWORKS=100000 cargo test --release --test differential` tries more of them.

mod common;

use common::networks::{self, between, pick, Plan};
use common::{networks_to_try, NetworkCase, OracleCase};
use jukesogbi::sample::Random;
use jukesogbi::{core, files};

const NETWORKS: u64 = 3_000;
/// Tests that share the networks, so that the machine's cores do.
const SHARES: u64 = 4;

/// How often something was met.
#[derive(Debug, Default)]
struct Met {
    builds: u64,
    pairs: u64,
    far: u64,
    far_none: u64,
    local_none: u64,
    several_tried: u64,
    entries: u64,
    squares: u64,
    squares_far: u64,
    squares_none: u64,
    squares_equal: u64,
    refusals: [u64; 18],
}

impl Met {
    fn refusal<V>(&mut self, result: &Result<V, u32>) {
        if let Err(rule) = result {
            self.refusals[*rule as usize] += 1;
        }
    }
}

/// Place numbers that are none, among them those that a cut to 16 or 8 bits would make into one.
fn no_places(n: u32) -> [u32; 6] {
    [n, n + 1, 256 * 256, 65_535, u32::MAX, 1 << 31]
}

/// Grid numbers that are none.
const NO_GRIDS: [u32; 8] = [0, 65, 66, 256 + 6, 65_535, 65_536, 65_536 + 3, u32::MAX];

/// Building under g with what it needs, with less and with more.
fn building(case: &NetworkCase, g: u32, random: &mut Random, met: &mut Met) {
    let (words, size) = (case.words(), case.reference.oracle(g).bytes.len());
    let more = 1 + random.below(40) as usize;
    let lent = [
        (words, size),
        (words + more, size + more),
        (words - 1, size),
        (words, size - 1),
        (0, size),
        (words, 0),
        // Both too short: 14 comes first.
        (words - 1, size - 1),
        (random.below(words as u64) as usize, size + more),
        (words + more, random.below(size as u64) as usize),
    ];
    for (words, room) in lent {
        met.builds += 1;
        met.refusal(&case.build(g, words, room).result);
    }
    assert!(files::most_room(&case.reference.bytes) >= size, "the program would lend too little for an oracle");
    assert!(files::words_needed(&case.reference.bytes) == words);
}

/// Every pair and every list.
fn all_pairs(case: &OracleCase, ways: bool, met: &mut Met) {
    let (n, words) = (case.reference.size() as u32, case.words());
    for s in 0..n {
        met.entries += (case.list(s).result.unwrap().size > 2) as u64;
        for t in 0..n {
            let answer = case.time(s, t, words).result.unwrap();
            let far = case.far(s, t);
            met.refusal(&far.result);
            met.pairs += 1;
            met.far += answer.far as u64;
            met.far_none += (answer.far && answer.time.is_none()) as u64;
            met.local_none += (!answer.far && answer.time.is_none()) as u64;
            met.several_tried += (answer.pairs > 1) as u64;
            if ways {
                case.way(s, t, words, 2 * n as usize).result.unwrap();
            }
        }
    }
}

/// Places that are none, and words and room around what is needed.
fn arguments(case: &OracleCase, random: &mut Random, met: &mut Met) {
    let (n, words) = (case.reference.size() as u32, case.words());
    let most = 2 * n as usize;
    let place = random.below(n as u64) as u32;
    for none in no_places(n) {
        met.refusal(&case.list(none).result);
        for (s, t) in [(none, place), (place, none), (none, none)] {
            met.refusal(&case.time(s, t, words).result);
            met.refusal(&case.far(s, t).result);
            met.refusal(&case.way(s, t, words, most).result);
            // 12 comes before 14 and 15.
            met.refusal(&case.time(s, t, 0).result);
            met.refusal(&case.way(s, t, words - 1, 0).result);
        }
    }
    for _ in 0..3 {
        let (s, t) = (random.below(n as u64) as u32, random.below(n as u64) as u32);
        let more = 1 + random.below(30) as usize;
        for lent in [0, words - 1, words, words + more, random.below(words as u64) as usize] {
            met.refusal(&case.time(s, t, lent).result);
            met.refusal(&case.audit(lent).result);
            let needed = 2 * case.reference.way(s, t, words, most).result.unwrap();
            for room in [0, needed.saturating_sub(1), needed, needed + 1, needed + more] {
                met.refusal(&case.way(s, t, lent, room).result);
            }
        }
    }
}

/// Names for one side of a block. Some of them come again, or are those of the other side.
fn names(random: &mut Random, n: u32, count: usize, other: &[u32]) -> Vec<u32> {
    let mut side: Vec<u32> = Vec::new();
    for _ in 0..count {
        let named = [other, &side].concat();
        let again = !named.is_empty() && random.once_in(3);
        side.push(if again { pick(random, &named) } else { random.below(n as u64) as u32 });
    }
    side
}

/// A block of 1 to 12 names a side, against the reference and, square by square, against the core's single answers.
fn block(case: &OracleCase, random: &mut Random, met: &mut Met) {
    let (n, o) = (case.reference.size() as u32, &case.reference.bytes);
    let mut work = vec![0; case.words()];
    let mut count = || between(random, 1, 12) as usize;
    let (rows, columns) = (count(), count());
    let starts = names(random, n, rows, &[]);
    let ends = names(random, n, columns, &starts);
    case.block(&starts, &ends, work.len() + random.below(3) as usize).result.unwrap();
    let block = core::block(o, &starts, &ends, &mut work).unwrap();
    for (i, &s) in starts.iter().enumerate() {
        for (j, &t) in ends.iter().enumerate() {
            let single = core::time(o, s, t, &mut work).unwrap();
            assert_eq!(block.time(i, j), single.time, "{}: square {i}, {j} of {starts:?} and {ends:?}", (case.input.name)());
            met.squares += 1;
            met.squares_far += (single.kind == core::Kind::Far) as u64;
            met.squares_none += single.time.is_none() as u64;
            met.squares_equal += (s == t) as u64;
        }
    }
    assert!((0..12).all(|i| (0..12).all(|j| i < rows && j < columns || (block.times[i][j], block.roads[i][j]) == (0, 0))), "an unused square is not zero");
}

/// Sides of 0, 1, 12 and 13 names, with words enough and too few: 17 comes before 14.
fn block_counts(case: &OracleCase, random: &mut Random, met: &mut Met) {
    let (n, words) = (case.reference.size() as u32, case.words());
    for rows in [0, 1, 12, 13] {
        for columns in [0, 1, 12, 13] {
            let (starts, ends) = (names(random, n, rows, &[]), names(random, n, columns, &[]));
            let outside = [rows, columns].iter().any(|count| [0, 13].contains(count));
            for (lent, rule) in [(words, None), (words - 1, Some(14)), (0, Some(14))] {
                let result = case.block(&starts, &ends, lent).result;
                assert_eq!(result.err(), if outside { Some(17) } else { rule }, "{rows} starts, {columns} ends");
                met.refusal(&result);
            }
        }
    }
}

/// A name that is none, up to the thirteenth, beside a side that may be empty or too long: 12 comes before 17 and 14.
fn block_names(case: &OracleCase, random: &mut Random, met: &mut Met) {
    let (n, words) = (case.reference.size() as u32, case.words());
    for none in no_places(n) {
        for count in [1, 12, 13] {
            let mut wrong = names(random, n, count, &[]);
            wrong[count - 1] = none;
            let others = pick(random, &[0, 1, 12, 13]);
            let sound = names(random, n, others, &[]);
            for (starts, ends) in [(&wrong, &sound), (&sound, &wrong), (&wrong, &wrong)] {
                for lent in [0, words] {
                    let result = case.block(starts, ends, lent).result;
                    assert_eq!(result, Err(12), "{starts:?} and {ends:?}");
                    met.refusal(&result);
                }
            }
        }
    }
}

fn try_network(seed: u64, met: &mut Met) {
    let mut random = Random(seed);
    let plan: Plan = networks::network(&mut random);
    let n = plan.places.len();
    let case = NetworkCase::new(move || format!("network of seed {seed}"), plan.bytes());
    for g in NO_GRIDS {
        met.refusal(&case.build(g, case.words(), 100).result);
    }
    for round in 0..3 {
        let g = networks::grid(&mut random);
        building(&case, g, &mut random, met);
        let oracle = case.reference.oracle(g).bytes.clone();
        let asked = OracleCase::new(move || format!("network of seed {seed} under {g}"), oracle);
        asked.audit(asked.words()).result.unwrap();
        // Ways do not hang on g, and many pairs take long.
        if round == 0 || n <= 14 {
            all_pairs(&asked, round == 0, met);
        }
        block(&asked, &mut random, met);
        if round == 0 {
            arguments(&asked, &mut random, met);
            block_counts(&asked, &mut random, met);
            block_names(&asked, &mut random, met);
        }
    }
}

fn share(k: u64) {
    let mut met = Met::default();
    for seed in (0..networks_to_try(NETWORKS)).filter(|seed| seed % SHARES == k) {
        try_network(seed, &mut met);
    }
    println!("{met:?}");
    // All kinds of answers are met often, so that nothing was compared only in name.
    if networks_to_try(NETWORKS) >= NETWORKS {
        assert!(met.far > met.pairs / 5 && met.far < met.pairs * 4 / 5);
        assert!(met.far_none > 1_000 && met.local_none > 1_000 && met.several_tried > 1_000 && met.entries > 1_000);
        assert!(met.squares_far > met.squares / 5 && met.squares_none > 1_000 && met.squares_equal > 1_000);
        assert!([8, 12, 13, 14, 15, 17].iter().all(|&rule: &usize| met.refusals[rule] > 1_000));
    }
}

#[test]
fn networks_of_share_0() {
    share(0);
}

#[test]
fn networks_of_share_1() {
    share(1);
}

#[test]
fn networks_of_share_2() {
    share(2);
}

#[test]
fn networks_of_share_3() {
    share(3);
}
