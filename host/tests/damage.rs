//! Damaged and hand-made files: networks and oracles with bytes changed, cut, added and moved, and well-shaped oracles that were never built.
//! Every call on each of them is held against the reference.

mod common;

use common::networks::{self, between, pick, Old, Plan};
use common::reference::{self, bytes_16, bytes_32, Block, Pair, Value, MOST_ROADS, MOST_SECONDS, NO_ROADS, NO_WALK, WORDS};
use common::tables::Tables;
use common::{NetworkCase, Opened, OracleCase};
use jukesogbi::plain;
use jukesogbi::sample::Random;

/// How often each rule was given, with 0 for none.
#[derive(Debug, Default)]
struct Given([u64; 22]);

impl Given {
    fn count<V>(&mut self, result: &Result<V, u32>) {
        self.0[*result.as_ref().err().unwrap_or(&0) as usize] += 1;
    }

    /// Fails where one of these was never given: the damage would then not be what it is meant to be.
    fn assert_met(&self, rules: &[usize]) {
        println!("given by rule: {:?}", self.0);
        for &rule in rules {
            assert!(self.0[rule] > 0, "rule {rule} was never given");
        }
    }
}

const NONE: Value = (NO_WALK, NO_ROADS);

/// The small networks of document 01, one with two pieces, and two with roads of no time, each with a grid number.
fn small() -> Vec<(&'static str, Plan, u32)> {
    vec![
        ("Line", networks::line(), 6),
        ("Fork", networks::fork(), 6),
        ("Fork without road 4", networks::fork_without_4(), 6),
        ("one place", networks::one_place(), 64),
        ("two lines", networks::two_lines(), 6),
        ("junction", networks::junction(), 6),
        ("ring", networks::ring(), 6),
    ]
}

/// Files of a small network, to damage.
struct Files {
    name: &'static str,
    network: Vec<u8>,
    oracle: Vec<u8>,
    g: u32,
    n: usize,
}

/// Those of the small networks, and of two old ones, which are refused by 21 as they are.
fn small_files() -> Vec<Files> {
    let new = small().into_iter().map(|(name, plan, g)| (name, plan.bytes(), oracle_of(&plan, g), g, plan.places.len()));
    let old = [("Fork with road 4 closed", networks::fork_closed()), ("Line with both roads closed", Old::of(networks::line(), [0, 1]))];
    let old = old.map(|(name, old)| (name, old.bytes(), old.oracle(6), 6, old.plan.places.len()));
    new.chain(old).map(|(name, network, oracle, g, n)| Files { name, network, oracle, g, n }).collect()
}

fn oracle_of(plan: &Plan, g: u32) -> Vec<u8> {
    reference::Network::of(plan.bytes()).oracle(g).bytes.clone()
}

fn bodies_of(file: &[u8]) -> Vec<Vec<u8>> {
    (1..=file[1] as usize).map(|kind| reference::body(file, kind).to_vec()).collect()
}

/// Builds from a damaged file. `n` is about its number of places.
fn build(name: impl Fn() -> String + 'static, bytes: Vec<u8>, n: usize, g: u32, given: &mut Given) {
    let case = NetworkCase::new(name, bytes);
    given.count(&case.build(g, WORDS * (n + 2), 2_000).result);
}

/// Puts every question to a damaged file: all pairs with s in `from`, one by one and as a block, and where it can be opened, once more to the opened
/// file. `n` is about its number of places, 12 at the most.
fn ask(name: impl Fn() -> String + 'static, bytes: Vec<u8>, n: usize, from: &[u32], given: &mut Given) {
    let case = OracleCase::new(name, bytes);
    let words = WORDS * (n + 2);
    given.count(&case.audit(words).result);
    for &s in from {
        given.count(&case.list(s).result);
        for t in (0..n as u32).rev() {
            given.count(&case.time(s, t, words).result);
            given.count(&case.far(s, t).result);
            given.count(&case.way(s, t, words, 2 * n).result);
        }
    }
    let ends: Vec<u32> = (0..n as u32).rev().collect();
    given.count(&case.block(from, &ends, words).result);
    // What the benchmark measures the check against finds the same.
    assert_eq!(plain::well_shaped(&case.reference.bytes), case.reference.open(usize::MAX).is_ok(), "{}", (case.input.name)());
    let opening = case.open(words);
    given.count(&opening.as_ref().map(|_| ()).map_err(|rule| *rule));
    if let Ok(mut opened) = opening {
        ask_opened(&mut opened, n, from, &ends);
    }
}

/// Each answer is held against the call that checks.
fn ask_opened(opened: &mut Opened, n: usize, from: &[u32], ends: &[u32]) {
    for &s in from {
        for &t in ends {
            let _ = (opened.time(s, t), opened.far(s, t), opened.way(s, t, 2 * n));
        }
    }
    let _ = opened.block(from, ends);
}

/// Values to set a byte to that tend to matter: small numbers, neighbours, the signs' edges.
fn telling(old: u8) -> Vec<u8> {
    let mut values = vec![0, 1, 2, 3, 5, 7, 64, 65, 127, 128, 254, 255, old.wrapping_add(1), old.wrapping_sub(1), old ^ 0x80, old ^ 0x10];
    values.sort_unstable();
    values.dedup();
    values.retain(|&v| v != old);
    values
}

// ---- Bytes changed ----

#[test]
fn every_byte_of_small_networks() {
    let mut given = Given::default();
    for Files { name, network, g, n, .. } in small_files() {
        for at in 0..network.len() {
            for value in 0..=255 {
                let mut bytes = network.clone();
                bytes[at] = value;
                build(move || format!("network {name}, byte {at} set to {value}"), bytes, n, g, &mut given);
            }
        }
    }
    given.assert_met(&[0, 1, 2, 4, 6, 7, 21]);
}

#[test]
fn every_byte_and_value_of_the_oracle_of_line() {
    let mut given = Given::default();
    let file = oracle_of(&networks::line(), 6);
    for at in 0..file.len() {
        for value in 0..=255 {
            let mut bytes = file.clone();
            bytes[at] = value;
            ask(move || format!("oracle of Line, byte {at} set to {value}"), bytes, 3, &[0, 1], &mut given);
        }
    }
    given.assert_met(&[0, 1, 2, 4, 6, 8, 9, 10, 11, 13, 16]);
}

#[test]
fn every_byte_of_small_oracles() {
    let mut given = Given::default();
    for Files { name, oracle, n, .. } in small_files() {
        let from = [0, n as u32 - 1];
        for at in 0..oracle.len() {
            for value in telling(oracle[at]) {
                let mut bytes = oracle.clone();
                bytes[at] = value;
                ask(move || format!("oracle of {name}, byte {at} set to {value}"), bytes, n, &from, &mut given);
            }
        }
    }
    given.assert_met(&[0, 1, 2, 4, 6, 7, 8, 9, 10, 11, 13, 16, 21]);
}

// ---- Cut and extended ----

#[test]
fn cut_at_every_length_and_extended() {
    let mut given = Given::default();
    for Files { name, network, oracle, g, n } in small_files() {
        for size in 0..network.len() {
            build(move || format!("network {name}, first {size} bytes"), network[..size].to_vec(), n, g, &mut given);
        }
        for size in 0..oracle.len() {
            ask(move || format!("oracle of {name}, first {size} bytes"), oracle[..size].to_vec(), n, &[0], &mut given);
        }
        for more in 1..24 {
            for filler in [0, 1, 255] {
                let longer = |file: &[u8]| [file, &vec![filler; more]].concat();
                build(move || format!("network {name} and {more} times {filler}"), longer(&network), n, g, &mut given);
                ask(move || format!("oracle of {name} and {more} times {filler}"), longer(&oracle), n, &[0], &mut given);
            }
        }
        build(move || format!("network {name} twice"), [&network[..], &network].concat(), n, g, &mut given);
        ask(move || format!("oracle of {name} twice"), [&oracle[..], &oracle].concat(), n, &[0], &mut given);
        // One kind of file in the place of the other.
        build(move || format!("oracle of {name} as a network"), oracle.clone(), n, g, &mut given);
        ask(move || format!("network {name} as an oracle"), network.clone(), n, &[0], &mut given);
    }
    given.assert_met(&[1, 2]);
    assert_eq!(given.0[0], 0, "a cut or extended file was accepted");
}

// ---- Bodies changed, with the contents in step ----

/// Each body with bytes taken out or put in at every position, so that rules 3, 5, 7, 21, 8, 9, 10 and 11 meet wrong lengths.
#[test]
fn bodies_shortened_and_lengthened() {
    let mut given = Given::default();
    for Files { name, network, oracle, g, n } in small_files() {
        for (network, file) in [(true, network), (false, oracle)] {
            let bodies = bodies_of(&file);
            let mut attempt = |kind: usize, at: usize, what: &'static str, size: usize, body: Vec<u8>| {
                let mut changed = bodies.clone();
                changed[kind] = body;
                let text = move || format!("{name}, network: {network}, body {}, {what} {size} bytes at {at}", kind + 1);
                let bytes = reference::file(&changed);
                if network {
                    build(text, bytes, n, g, &mut given);
                } else {
                    ask(text, bytes, n, &[0], &mut given);
                }
            };
            for (kind, body) in bodies.iter().enumerate() {
                for at in 0..=body.len() {
                    for size in [1, 2, 4, 6, 8, 10] {
                        let (front, rest) = (&body[..at], &body[at..]);
                        if size <= rest.len() {
                            attempt(kind, at, "without", size, [front, &rest[size..]].concat());
                            // The same bytes once more, which keeps numbers in range but not rising.
                            attempt(kind, at, "repeating", size, [front, &rest[..size], rest].concat());
                        }
                        attempt(kind, at, "with zeros,", size, [front, &vec![0; size], rest].concat());
                        attempt(kind, at, "with 255s,", size, [front, &vec![255; size], rest].concat());
                    }
                }
            }
        }
    }
    given.assert_met(&[0, 3, 4, 5, 6, 7, 8, 9, 10, 11, 16, 21]);
}

/// Kind, offset and length.
type Entry = (u8, u32, u32);

/// Entries that are wrong though something about them fits.
#[test]
fn contents_that_nearly_join() {
    let mut given = Given::default();
    for Files { name, network, oracle, g, n } in small_files() {
        for (network, file) in [(true, network), (false, oracle)] {
            let entries = file[1] as usize;
            let first = 2 + 9 * entries;
            let lengths: Vec<usize> = bodies_of(&file).iter().map(Vec::len).collect();
            let mut attempt = |what: String, change: &dyn Fn(&mut Vec<Entry>)| {
                let mut table: Vec<Entry> = (0..entries)
                    .map(|k| (file[2 + 9 * k], reference::number_32(&file, 3 + 9 * k), reference::number_32(&file, 7 + 9 * k)))
                    .collect();
                change(&mut table);
                let mut bytes = file[..2].to_vec();
                for (kind, offset, length) in table {
                    bytes.push(kind);
                    bytes.extend(bytes_32(offset as usize));
                    bytes.extend(bytes_32(length as usize));
                }
                bytes.extend(&file[first..]);
                let text = move || format!("{name}, network: {network}, {what}");
                if network {
                    build(text, bytes, n, g, &mut given);
                } else {
                    ask(text, bytes, n, &[0], &mut given);
                }
            };
            for k in 0..entries {
                for by in [1, 2, 4, 8, 9, u32::MAX, 1 << 31] {
                    attempt(format!("offset {k} up by {by}"), &|t| t[k].1 = t[k].1.wrapping_add(by));
                    attempt(format!("length {k} up by {by}"), &|t| t[k].2 = t[k].2.wrapping_add(by));
                    attempt(format!("offset and length {k} by {by}, end kept"), &|t| {
                        t[k].1 = t[k].1.wrapping_add(by);
                        t[k].2 = t[k].2.wrapping_sub(by);
                    });
                    // All later offsets are in step, so that only the file's end tells; where a sum passes 32 bits, it comes round.
                    attempt(format!("length {k} up by {by}, later offsets too"), &|t| {
                        t[k].2 = t[k].2.wrapping_add(by);
                        t[k + 1..].iter_mut().for_each(|e| e.1 = e.1.wrapping_add(by));
                    });
                    // The next body gives what this one takes: a good contents for other bodies, unless it comes round.
                    if k + 1 < entries {
                        attempt(format!("length {k} up by {by} at the cost of the next"), &|t| {
                            t[k].2 = t[k].2.wrapping_add(by);
                            t[k + 1].1 = t[k + 1].1.wrapping_add(by);
                            t[k + 1].2 = t[k + 1].2.wrapping_sub(by);
                        });
                    }
                }
                for kind in [0, k as u8, k as u8 + 2, 255] {
                    attempt(format!("kind {k} set to {kind}"), &|t| t[k].0 = kind);
                }
                for other in k + 1..entries {
                    attempt(format!("entries {k} and {other} changed over"), &|t| t.swap(k, other));
                    attempt(format!("kinds {k} and {other} changed over"), &|t| (t[k].0, t[other].0) = (t[other].0, t[k].0));
                }
            }
            // Bodies that overlap: all begin where the first does, or all end where the last does.
            attempt("all from the first offset".to_string(), &|t| t.iter_mut().for_each(|e| e.1 = first as u32));
            attempt("empty bodies, then one over all".to_string(), &|t| {
                t.iter_mut().for_each(|e| (e.1, e.2) = (first as u32, 0));
                t[entries - 1].2 = lengths.iter().sum::<usize>() as u32;
            });
            attempt("one over all, then empty bodies".to_string(), &|t| {
                let end = first + lengths.iter().sum::<usize>();
                t.iter_mut().for_each(|e| (e.1, e.2) = (end as u32, 0));
                t[0] = (1, first as u32, (end - first) as u32);
            });
        }
    }
    given.assert_met(&[2, 3]);
}

// ---- Several things wrong ----

/// A handful of changes at once: the first rule in checking order counts, wherever the damage stands in the file.
#[test]
fn several_changes_at_once() {
    let (small, mut given) = (small_files(), Given::default());
    for seed in 0..6_000 {
        let mut random = Random(seed);
        let Files { name, network: network_file, oracle, g, n } = &small[random.below(small.len() as u64) as usize];
        let (n, network) = (*n, random.once_in(3));
        let mut bodies = bodies_of(if network { network_file } else { oracle });
        for _ in 0..1 + random.below(4) {
            let kind = random.below(bodies.len() as u64) as usize;
            let size = bodies[kind].len();
            match random.below(8) {
                0 => bodies[kind].truncate(random.below(size as u64 + 1) as usize),
                1 => bodies[kind].push(pick(&mut random, &[0, 1, 255])),
                2 => bodies[kind].extend(bytes_16(pick(&mut random, &[0, 1, 2, 65_535]))),
                _ if size > 0 => {
                    let at = random.below(size as u64) as usize;
                    bodies[kind][at] = pick(&mut random, &telling(bodies[kind][at]));
                }
                _ => {}
            }
        }
        let mut bytes = reference::file(&bodies);
        if random.once_in(12) {
            let at = random.below(2 + 9 * bodies.len() as u64) as usize;
            bytes[at] = pick(&mut random, &telling(bytes[at]));
        }
        let text = format!("several changes of seed {seed} on {name}");
        // Words, places and sides that break 12, 14 and 17, too: the file's rules come first.
        if network {
            let case = NetworkCase::new(move || text.clone(), bytes);
            for (g, words, room) in [(*g, WORDS * n, 2_000), (0, 0, 0), (65, WORDS * n, 2_000), (*g, WORDS * n - 1, 0)] {
                given.count(&case.build(g, words, room).result);
            }
        } else {
            let case = OracleCase::new(move || text.clone(), bytes);
            for words in [WORDS * n, WORDS * n - 1, 0] {
                given.count(&case.audit(words).result);
                given.count(&case.open(words).map(|_| ()));
                for (s, t) in [(0, n as u32 - 1), (0, 0), (n as u32, 0), (0, u32::MAX)] {
                    given.count(&case.time(s, t, words).result);
                    given.count(&case.far(s, t).result);
                    given.count(&case.way(s, t, words, 0).result);
                    given.count(&case.list(t).result);
                }
                let last = n as u32 - 1;
                let sides: [(&[u32], &[u32]); 5] = [(&[0, last], &[last, last, 0]), (&[], &[0]), (&[0], &[last; 13]), (&[last; 13], &[]), (&[], &[n as u32])];
                for (starts, ends) in sides {
                    given.count(&case.block(starts, ends, words).result);
                }
            }
        }
    }
    given.assert_met(&[0, 1, 2, 3, 4, 5, 6, 7, 8, 9, 10, 11, 12, 13, 14, 15, 16, 17, 21]);
}

// ---- Well-shaped oracles that were never built ----

fn all_places(plan: &Plan) -> Vec<u32> {
    (0..plan.places.len() as u32).collect()
}

/// Times that were never worked out: the far answer is the least sum of what the file holds.
#[test]
fn random_lists_and_tables() {
    let mut given = Given::default();
    let mut several = 0;
    for seed in 0..1_500 {
        let mut random = Random(seed);
        let plan = networks::network(&mut random);
        let (n, g) = (plan.places.len(), networks::grid(&mut random));
        if n > 14 {
            continue;
        }
        let oracle = Tables::random(&mut random, n).oracle(&plan, g);
        let case = OracleCase::new(move || format!("random lists and table of seed {seed}"), oracle);
        let words = case.words();
        given.count(&case.audit(words).result);
        let mut opened = case.open(words).unwrap_or_else(|rule| panic!("refused {rule}"));
        for s in 0..n as u32 {
            case.list(s);
            for t in 0..n as u32 {
                several += (opened.time(s, t).unwrap().pairs > 1) as u32;
                given.count(&opened.far(s, t));
            }
            given.count(&opened.way(s, 0, 2 * n));
        }
        // The first and the last twelve, as far as there are so many.
        let all = all_places(&plan);
        given.count(&opened.block(&all[..n.min(12)], &all[n.saturating_sub(12)..]));
    }
    given.assert_met(&[0, 13, 16]);
    assert!(several > 10_000, "only {several} far pairs with several sums");
}

/// 'No walk', and values at and about the limits of both numbers.
fn about_the_limits() -> [Value; 15] {
    [
        NONE, (NO_WALK - 1, NO_ROADS), (NO_WALK, NO_ROADS - 1), (NO_WALK, MOST_ROADS), (NO_WALK, 0), (0, NO_ROADS), (MOST_SECONDS, MOST_ROADS),
        (MOST_SECONDS + 1, MOST_ROADS), (MOST_SECONDS, MOST_ROADS + 1), (MOST_SECONDS + 1, 0), (0, MOST_ROADS + 1), (1 << 31, 1), (7, 1 << 15), (0, MOST_ROADS),
        (0, 0),
    ]
}

/// These put in the place of each value of built oracles in turn.
#[test]
fn each_value_replaced() {
    let mut given = Given::default();
    let mut plans: Vec<(String, Plan, u32)> = small().into_iter().map(|(name, plan, g)| (name.to_string(), plan, g)).collect();
    // Some larger ones, with several entries in their lists.
    for seed in (0..).filter(|&seed| (6..=10).contains(&networks::network(&mut Random(seed)).places.len())).take(12) {
        plans.push((format!("network of seed {seed}"), networks::network(&mut Random(seed)), 9));
    }
    for (name, plan, g) in plans {
        let n = plan.places.len();
        let mut tables = Tables::of(&oracle_of(&plan, g), n);
        assert_eq!(tables.oracle(&plan, g), oracle_of(&plan, g), "{name}");
        for k in 0..tables.values().len() {
            for value in about_the_limits() {
                let old = std::mem::replace(tables.values()[k], value);
                let text = name.clone();
                ask(move || format!("{text}, value {k} replaced by {value:?}"), tables.oracle(&plan, g), n, &[0, n as u32 - 1], &mut given);
                *tables.values()[k] = old;
            }
        }
    }
    given.assert_met(&[0, 10, 11, 13, 16]);
}

/// Built oracles of random networks: cut, with a byte more, with bytes changed, with numbers written over, and with some values replaced.
#[test]
fn oracles_of_random_networks() {
    let mut given = Given::default();
    for seed in 0..300 {
        let mut random = Random(seed);
        let plan = networks::network(&mut random);
        let (n, g) = (plan.places.len(), networks::grid(&mut random));
        if n > 12 {
            continue;
        }
        let (oracle, last) = (oracle_of(&plan, g), n as u32 - 1);
        let mut damaged = Vec::new();
        for _ in 0..8 {
            damaged.push(oracle[..random.below(oracle.len() as u64) as usize].to_vec());
            let mut bytes = oracle.clone();
            let at = random.below(bytes.len() as u64) as usize;
            bytes[at] = bytes[at].wrapping_add(1 + random.below(255) as u8);
            damaged.push(bytes);
        }
        damaged.push([&oracle[..], &[0]].concat());
        // A number of 16 or 32 bits in each body, at a position of such numbers.
        for kind in 1..=7 {
            let ((from, to), size) = (reference::body_ends(&oracle, kind), pick(&mut random, &[2, 4]));
            let numbers = (to - from) / size;
            if numbers > 0 {
                let at = from + size * random.below(numbers as u64) as usize;
                let limits = [0, 65, n, plan.roads.len(), 4_095, 4_096, 65_535, 100_001, 1_000_001, MOST_SECONDS as usize + 1, NO_WALK as usize - 1];
                let mut bytes = oracle.clone();
                bytes[at..at + size].copy_from_slice(&bytes_32(pick(&mut random, &limits))[..size]);
                damaged.push(bytes);
            }
        }
        let mut tables = Tables::of(&oracle, n);
        for _ in 0..4 {
            let small = random.below(2_000) as u32;
            let mut values = tables.values();
            if !values.is_empty() {
                let k = random.below(values.len() as u64) as usize;
                *values[k] = pick(&mut random, &[NONE, (MOST_SECONDS, MOST_ROADS), (small, 1 + small % 7)]);
            }
        }
        damaged.push(tables.oracle(&plan, g));
        for (k, bytes) in damaged.into_iter().enumerate() {
            ask(move || format!("oracle of seed {seed} under {g}, damage {k}"), bytes, n, &[0, last], &mut given);
        }
    }
    given.assert_met(&[0, 1, 2, 4, 6, 8, 9, 10, 11, 13, 16]);
}

/// The greatest sum: three greatest values. It is not a refusal and does not come round, and its roads may be more than an entry holds.
#[test]
fn the_greatest_sum() {
    let plan = networks::line();
    let mut tables = Tables::of(&oracle_of(&plan, 6), 3);
    tables.values().into_iter().for_each(|v| *v = (MOST_SECONDS, MOST_ROADS));
    let case = OracleCase::new(|| "Line with the greatest values".to_string(), tables.oracle(&plan, 6));
    let greatest = Some(Pair { seconds: 1_228_500_000, roads: 12_285 });
    assert_eq!(case.far(0, 2).result.unwrap().time, greatest);
    assert_eq!(case.time(2, 0, 24).result.unwrap().time, greatest);
    assert_eq!(case.block(&[0, 2], &[2], 24).result, Ok(Block::of([[(1_228_500_000, 12_285)], [(0, 0)]])));
    assert_eq!(case.audit(24).result, Err(16));
}

/// Two or more bodies changed so that they still fit one another: only the audit can tell.
#[test]
fn bodies_changed_together() {
    let mut given = Given::default();
    let mut plans: Vec<(Plan, u32)> = small().into_iter().map(|(_, plan, g)| (plan, g)).collect();
    for seed in 100..220 {
        let mut random = Random(seed);
        let plan = networks::network(&mut random);
        if plan.places.len() <= 10 {
            plans.push((plan, networks::grid(&mut random)));
        }
    }
    for (number, (plan, g)) in plans.iter().enumerate() {
        let (g, n) = (*g, plan.places.len());
        let mut random = Random(number as u64);
        let tables = Tables::of(&oracle_of(plan, g), n);
        let mut attempt = |what: &'static str, plan: &Plan, g: u32, tables: &Tables| {
            let bytes = tables.oracle(plan, g);
            let expected = if bytes == oracle_of(plan, g) { Ok(()) } else { Err(16) };
            let case = OracleCase::new(move || format!("number {number}, {what}"), bytes.clone());
            assert_eq!(case.audit(WORDS * n).result, expected, "number {number}, {what}");
            ask(move || format!("number {number}, {what}"), bytes, n, &all_places(plan), &mut given);
        };
        attempt("as it was", plan, g, &tables);
        if !tables.transit.is_empty() {
            // A transit place left out of all three bodies.
            let gone = random.below(tables.transit.len() as u64) as usize;
            let mut less = tables.clone();
            less.transit.remove(gone);
            less.table.remove(gone);
            less.table.iter_mut().for_each(|row| {
                row.remove(gone);
            });
            for list in &mut less.lists {
                list.retain(|e| e.0 != gone);
                list.iter_mut().for_each(|e| e.0 -= (e.0 > gone) as usize);
            }
            attempt("a transit place less", plan, g, &less);
            // An entry left out, and one moved to another place's list.
            if let Some(u) = (0..n).find(|&u| !tables.lists[u].is_empty()) {
                let mut moved = tables.clone();
                let entry = moved.lists[u].remove(0);
                attempt("an entry less", plan, g, &moved);
                let other = (u + 1) % n;
                if other != u && moved.lists[other].iter().all(|e| e.0 != entry.0) {
                    moved.lists[other].push(entry);
                    moved.lists[other].sort_unstable();
                    attempt("an entry in another list", plan, g, &moved);
                }
            }
            // One second more in each list and two less in the table: most sums stay. The same with roads.
            let mut shifted = tables.clone();
            shifted.lists.iter_mut().flatten().filter(|e| e.1.0 < MOST_SECONDS).for_each(|e| e.1.0 += 1);
            shifted.table.iter_mut().flatten().filter(|v| (2..=MOST_SECONDS).contains(&v.0)).for_each(|v| v.0 -= 2);
            attempt("seconds moved from the table to the lists", plan, g, &shifted);
            let mut shifted = tables.clone();
            shifted.lists.iter_mut().flatten().filter(|e| e.1.1 < MOST_ROADS).for_each(|e| e.1.1 += 1);
            shifted.table.iter_mut().flatten().filter(|v| (2..=MOST_ROADS).contains(&v.1)).for_each(|v| v.1 -= 2);
            attempt("roads moved from the table to the lists", plan, g, &shifted);
        }
        // A place that is no transit place put among them, with exact times.
        if let Some(new) = (0..n).find(|u| !tables.transit.contains(u)) {
            let network = reference::Network::of(plan.bytes());
            let map = network.map().unwrap();
            let time = |a: usize, b: usize| reference::value(map.d(a, b));
            let at = tables.transit.iter().filter(|&&a| a < new).count();
            let mut more = tables.clone();
            more.transit.insert(at, new);
            more.lists.iter_mut().flatten().for_each(|e| e.0 += (e.0 >= at) as usize);
            more.table = more.transit.iter().map(|&a| more.transit.iter().map(|&b| time(a, b)).collect()).collect();
            attempt("a transit place more, in no list", plan, g, &more);
            for u in 0..n {
                more.lists[u].push((at, time(u, new)));
                more.lists[u].sort_unstable();
            }
            attempt("a transit place more, in all lists", plan, g, &more);
        }
        // The tables of one network with the grid or the roads of another. It may be the built oracle of those, too.
        attempt("another grid", plan, if g == 64 { 63 } else { g + 1 }, &tables);
        attempt("a coarser grid", plan, 1 + g / 2, &tables);
        if !plan.roads.is_empty() {
            let road = random.below(plan.roads.len() as u64) as usize;
            let mut slower = plan.clone();
            slower.roads[road].2 = slower.roads[road].2 % 100_000 + 1;
            attempt("another road time", &slower, g, &tables);
            attempt("a road left out", &Old::of(plan.clone(), [road as u16]).left_out(), g, &tables);
        }
    }
    given.assert_met(&[0, 13, 16]);
}

/// Lists in an order of their own, overlapping, or with gaps between them: the starts tell, and rule 10 refuses each.
#[test]
fn access_layouts() {
    let mut given = Given::default();
    for (name, plan, g) in small() {
        let (n, bodies) = (plan.places.len(), bodies_of(&oracle_of(&plan, g)));
        let start = |u: usize| reference::number_32(&bodies[5], 4 * u) as usize;
        let mut attempt = |what: &'static str, access: Vec<u8>| {
            let mut changed = bodies.clone();
            changed[5] = access;
            ask(move || format!("oracle of {name}, {what}"), reference::file(&changed), n, &all_places(&plan), &mut given);
        };
        let with_starts = |starts: Vec<usize>| [starts.into_iter().flat_map(bytes_32).collect::<Vec<u8>>(), bodies[5][4 * n..].to_vec()].concat();
        let right: Vec<usize> = (0..n).map(start).collect();
        assert_eq!(with_starts(right.clone()), bodies[5]);
        attempt("all starts at the first list", with_starts(vec![4 * n; n]));
        attempt("starts turned round", with_starts(right.iter().rev().copied().collect()));
        attempt("starts from the lists' beginning", with_starts(right.iter().map(|s| s - 4 * n).collect()));
        attempt("starts 2 too far", with_starts(right.iter().map(|s| s + 2).collect()));
        attempt("starts at the end", with_starts(vec![bodies[5].len(); n]));
        attempt("starts past the end", with_starts(vec![bodies[5].len() + 6; n]));
        attempt("great starts", with_starts(vec![u32::MAX as usize; n]));
        for u in 0..n {
            let mut starts = right.clone();
            starts[u] += 1 << 31;
            attempt("one start with its highest bit set", with_starts(starts));
            // A count that reaches past the body, by a little and by far.
            for count in [1, 2, 3, 255, 256, 32_768, 65_535] {
                let mut access = bodies[5].clone();
                access[right[u]..right[u] + 2].copy_from_slice(&bytes_16(count));
                attempt("another count", access);
            }
        }
        attempt("starts alone", bodies[5][..4 * n].to_vec());
        attempt("not all starts", bodies[5][..4 * n - 1].to_vec());
        attempt("one byte of the last count missing", bodies[5][..right[n - 1] + 1].to_vec());
        attempt("nothing", Vec::new());
    }
    given.assert_met(&[10]);
}

/// Coordinates, seconds and counts one step over their limits, by each byte of the number.
#[test]
fn numbers_about_their_limits() {
    let mut given = Given::default();
    let limit = 1_000_000_i64;
    for x in [-limit, limit].into_iter().flat_map(|m| (-2..=2).map(move |by| m + by)).chain([i32::MIN as i64, i32::MAX as i64, -1, 0]) {
        for place in 0..3 {
            for up in [false, true] {
                let mut plan = networks::line();
                let coordinate = if up { &mut plan.places[place].1 } else { &mut plan.places[place].0 };
                *coordinate = x as i32;
                build(move || format!("Line, coordinate {x} at {place}, upward: {up}"), plan.bytes(), 3, 6, &mut given);
                let mut bodies = bodies_of(&oracle_of(&networks::line(), 6));
                bodies[0] = plan.bodies()[0].clone();
                ask(move || format!("oracle of Line, coordinate {x} at {place}, upward: {up}"), reference::file(&bodies), 3, &[0], &mut given);
            }
        }
    }
    for seconds in [0, 1, 2, 99_999, 100_000, 100_001, 65_536, 131_072, 1 << 24, 1 << 31, u32::MAX] {
        let mut plan = networks::line();
        plan.roads[1].2 = seconds;
        build(move || format!("Line, {seconds} seconds"), plan.bytes(), 3, 6, &mut given);
    }
    // Ends: the number of places, equal ends, ends that a cut to 8 bits would make good.
    for (a, b) in [(3, 0), (0, 3), (1, 1), (0, 256), (256, 0), (257, 2), (65_535, 0), (0, 65_535), (2, 0)] {
        let mut plan = networks::line();
        (plan.roads[0].0, plan.roads[0].1) = (a, b);
        build(move || format!("Line, road from {a} to {b}"), plan.bytes(), 3, 6, &mut given);
    }
    for closed in [vec![0], vec![1], vec![0, 1], vec![1, 0], vec![0, 0], vec![2], vec![0, 2], vec![256], vec![0, 256], vec![65_535], vec![0, 1, 1]] {
        let (old, text) = (Old::of(networks::line(), closed.clone()), format!("Line, closed {closed:?}"));
        build(move || text.clone(), old.bytes(), 3, 6, &mut given);
    }
    for transit in [vec![0], vec![1], vec![2], vec![3], vec![257], vec![65_535]] {
        let (mut bodies, text) = (bodies_of(&oracle_of(&networks::line(), 6)), format!("oracle of Line, transit {transit:?}"));
        bodies[4] = transit.iter().flat_map(|&a| bytes_16(a)).collect();
        ask(move || text.clone(), reference::file(&bodies), 3, &[0], &mut given);
    }
    for g in [0, 1, 2, 5, 6, 63, 64, 65, 256, 262, 65_535] {
        let mut bodies = bodies_of(&oracle_of(&networks::line(), 6));
        bodies[3] = bytes_16(g).to_vec();
        ask(move || format!("oracle of Line, g {g}"), reference::file(&bodies), 3, &[0, 2], &mut given);
    }
    given.assert_met(&[0, 4, 6, 7, 8, 9, 16, 21]);
}

/// Random bytes, and random bytes behind a right beginning.
#[test]
fn noise() {
    let mut given = Given::default();
    for seed in 0..4_000 {
        let mut random = Random(seed);
        let size = between(&mut random, 0, 120) as usize;
        let mut bytes: Vec<u8> = (0..size).map(|_| random.number() as u8).collect();
        let entries = pick(&mut random, &[3, 7]);
        if random.once_in(2) && size >= 2 {
            (bytes[0], bytes[1]) = (if entries == 3 { 1 } else { 2 }, entries);
        }
        if random.once_in(3) {
            // Noise in the bodies only.
            let count = entries as usize;
            bytes = reference::file(&(0..count).map(|_| (0..random.below(12)).map(|_| random.below(3) as u8).collect()).collect::<Vec<Vec<u8>>>());
        }
        let twin = bytes.clone();
        build(move || format!("noise of seed {seed}"), bytes, 2, 6, &mut given);
        ask(move || format!("noise of seed {seed}"), twin, 2, &[0], &mut given);
    }
    given.assert_met(&[1, 2, 3]);
}
