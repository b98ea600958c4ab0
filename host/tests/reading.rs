//! Files that are longer than any that is accepted: they are refused by the rule that the core gives for the whole of them, and reading them stops.

mod common;

use common::networks::{self, Old, Plan};
use common::program::{oracle, LONGEST_ORACLE};
use common::reference::sheets::{breaks_18, sheet};
use common::reference::{self, bytes_32, file};
use jukesogbi::core::{self, Refused};
use jukesogbi::files::Kind;
use jukesogbi::reading;
use jukesogbi::sample::Random;
use std::io::Read;

/// The most bytes of a network, from document 01.
const NETWORK: usize = 2 + 3 * 9 + 4096 * 8 + 16_384 * 8 + 16_384 * 2;

/// The rule of a network as far as it is checked before the working words.
fn network_rule(f: &[u8]) -> u32 {
    core::build(f, 8, &mut [], &mut []).map_or_else(|Refused(rule)| rule, |_| 0)
}

/// The converter's, without output.
fn convert_rule(f: &[u8]) -> u32 {
    core::convert(f, &mut []).map_or_else(|Refused(rule)| rule, |_| 0)
}

fn oracle_rule(f: &[u8]) -> u32 {
    core::list_rule(f, 0)
}

/// A stream that hands out a few bytes at a time.
struct Drip<'a>(&'a [u8], Random);

impl Read for Drip<'_> {
    fn read(&mut self, out: &mut [u8]) -> std::io::Result<usize> {
        let size = (1 + self.1.below(100_000) as usize).min(out.len());
        self.0.read(&mut out[..size])
    }
}

/// Reads with the size known or not, and compares the rule and the memory taken. Hands back the rule.
fn check(whole: &[u8], kind: Kind, size: Option<u64>) -> u32 {
    let (most, rule) = if kind == Kind::Network { (NETWORK, network_rule as fn(&[u8]) -> u32) } else { (LONGEST_ORACLE, oracle_rule as _) };
    let read = reading::file(&mut Drip(whole, Random(whole.len() as u64)), kind, size).unwrap();
    let expected = rule(whole);
    assert_eq!(rule(&read), expected, "{} bytes", whole.len());
    if kind == Kind::Network {
        assert_eq!(convert_rule(&read), convert_rule(whole), "{} bytes", whole.len());
    }
    assert!(read.capacity() <= most + 1, "{} bytes of memory", read.capacity());
    assert!(read == whole || whole.len() > most || rule(whole) == 1);
    expected
}

fn check_network(whole: &[u8]) -> u32 {
    check(whole, Kind::Network, None);
    check(whole, Kind::Network, Some(whole.len() as u64))
}

/// The bodies of the largest network, an old one: the last places are joined by many roads, all closed.
fn largest() -> [Vec<u8>; 3] {
    let plan = Plan { places: (0..4096).map(|i| (i, -i)).collect(), roads: (0..16_384).map(|i| (i % 4095, 4095, 100_000)).collect() };
    Old::of(plan, 0..16_384).bodies()
}

#[test]
fn the_most_bytes() {
    assert_eq!((jukesogbi::form::most_size(3), jukesogbi::form::most_size(7)), (NETWORK, LONGEST_ORACLE));
    let whole = file(&largest());
    assert_eq!(whole.len(), NETWORK);
    // Accepted by the converter alone, but for the output.
    assert_eq!((check_network(&whole), convert_rule(&whole)), (21, 15));
    assert_eq!(check_network(&whole[..NETWORK - 1]), 2);
    assert_eq!(check_network(&[&whole[..], b"x"].concat()), 2);
    // Without closed roads by every call, but for the words.
    let mut bodies = largest();
    bodies[2].clear();
    assert_eq!(check_network(&file(&bodies)), 14);
}

/// Each body too long by a little or much, with joins that are right to the file's end.
#[test]
fn bodies_that_are_too_long() {
    for (k, rule) in [(0, 3), (1, 5), (2, 7)] {
        for more in [1, 2, 7, 8, 16, 1000, 1_000_000] {
            let mut bodies = largest();
            bodies[k].extend(vec![0; more]);
            assert_eq!(check_network(&file(&bodies)), rule, "body {k} and {more} bytes");
            // The bodies behind do not matter, nor what the long one holds.
            bodies[k..].iter_mut().for_each(|body| body.fill(0xff));
            assert_eq!(check_network(&file(&bodies)), rule);
            // A damage before it comes first.
            if k > 0 {
                bodies[0][3] = 0x7f;
                assert_eq!(check_network(&file(&bodies)), 4);
                bodies[0].truncate(8 * 4095 + 1);
                assert_eq!(check_network(&file(&bodies)), 3);
            }
            if k > 1 {
                let mut bodies = [largest()[0].clone(), largest()[1].clone(), bodies[2].clone()];
                bodies[1][4..8].fill(0xff);
                assert_eq!(check_network(&file(&bodies)), 6);
            }
        }
    }
}

/// Edition, number of entries, kinds, offsets and lengths of files that are too long, one at a time.
#[test]
fn contents_that_are_damaged() {
    for longer in [0, 1, 2, 100_000] {
        let mut bodies = largest();
        bodies[1].extend(vec![0; longer]);
        // With right joins, and with bytes behind the last body.
        for behind in [0, 1, 2, 100_000] {
            let mut whole = file(&bodies);
            whole.extend(vec![0; behind]);
            for at in 0..29 {
                for value in [0, 3, 7, whole[at] ^ 1, whole[at] ^ 0x80, 0xff] {
                    let kept = std::mem::replace(&mut whole[at], value);
                    let rule = check_network(&whole);
                    // Another length may be that of the bytes behind.
                    assert!(value == kept || rule == if at < 2 { 1 } else { 2 } || at >= 7 && behind > 0, "{at}: {value}");
                    whole[at] = kept;
                }
            }
        }
    }
}

/// Contents that end one byte behind the most, for a file that is longer; and other ends about there.
#[test]
fn ends_about_the_most() {
    for claimed in NETWORK - 2..NETWORK + 4 {
        for size in NETWORK - 2..NETWORK + 4 {
            let mut bodies = largest();
            bodies[2].resize(2 * 16_384 + claimed - NETWORK, 0);
            let mut whole = file(&bodies);
            whole.resize(size, 0);
            check_network(&whole);
        }
    }
}

#[test]
fn random_long_networks() {
    let mut random = Random(11);
    let mut met = [0; 22];
    for _ in 0..1500 {
        let mut bodies = largest();
        for body in &mut bodies {
            match random.below(4) {
                0 => body.truncate(body.len() - random.below(3) as usize * 8),
                1 => body.resize(body.len() + random.below(40) as usize, 0),
                _ => {}
            }
            if random.once_in(3) {
                let at = random.below(body.len() as u64) as usize;
                body[at] ^= 1 << random.below(8);
            }
        }
        let mut whole = file(&bodies);
        if random.once_in(6) {
            whole.resize(whole.len() + random.below(3) as usize, 0);
        }
        if random.once_in(12) {
            whole[random.below(29) as usize] ^= 1 << random.below(8);
        }
        met[check_network(&whole) as usize] += 1;
    }
    assert!([1, 2, 3, 5, 6, 7, 21].iter().all(|&rule| met[rule] > 5), "{met:?}");
}

// ---- Oracles ----

/// Line's oracle with these bytes put to a body. They are zeros in memory that is not touched.
fn long_oracle(k: usize, more: usize) -> Vec<u8> {
    let line = oracle(&networks::line(), 6);
    let entry = |k: usize| 2 + 9 * k;
    let number = |at: usize| u32::from_le_bytes(line[at..at + 4].try_into().unwrap()) as usize;
    let end = number(entry(k) + 1) + number(entry(k) + 5);
    let mut whole = vec![0; line.len() + more];
    whole[..end].copy_from_slice(&line[..end]);
    whole[end + more..].copy_from_slice(&line[end..]);
    whole[entry(k) + 5..entry(k) + 9].copy_from_slice(&bytes_32(number(entry(k) + 5) + more));
    for later in k + 1..7 {
        whole[entry(later) + 1..entry(later) + 5].copy_from_slice(&bytes_32(number(entry(later) + 1) + more));
    }
    whole
}

#[test]
fn long_oracles() {
    // Line's N is 3 and T is 1, so most bodies are too long for it before they are too long for all.
    for (k, rule) in [(0, 3), (1, 5), (2, 7), (3, 8), (4, 9), (5, 10), (6, 11)] {
        assert_eq!(check(&long_oracle(k, LONGEST_ORACLE), Kind::Oracle, None), rule);
    }
    // Behind a table that is too long, one byte more; before it, a damaged edition, number, kind, offset, length, place, road, grid, transit place, list.
    let mut whole = long_oracle(6, LONGEST_ORACLE);
    let line = oracle(&networks::line(), 6).len();
    for (at, value, rule) in
        [(0, 1, 1), (1, 3, 1), (2, 9, 2), (12, 0, 2), (16, 1, 2), (68, 0x7f, 4), (95, 2, 6), (105, 0, 8), (107, 3, 9), (line - 7, 0xf0, 10)]
    {
        let kept = std::mem::replace(&mut whole[at], value);
        assert_eq!(check(&whole, Kind::Oracle, Some(whole.len() as u64)), rule, "byte {at}");
        whole[at] = kept;
    }
    whole.push(0);
    assert_eq!(check(&whole, Kind::Oracle, None), 2);
}

// ---- Sheets ----

/// Reads a sheet and compares what rule 18 says and the memory taken. Whatever else is refused by it, a sheet is read as it is.
fn check_sheet(whole: &[u8]) -> bool {
    let read = reading::file(&mut Drip(whole, Random(whole.len() as u64)), Kind::Sheet, None).unwrap();
    assert_eq!(breaks_18(&read), breaks_18(whole), "{} bytes", whole.len());
    assert!(breaks_18(whole) || read == whole, "{} bytes", whole.len());
    let claimed = if whole.len() < 11 { 0 } else { 11 + reference::number_32(whole, 7) as usize };
    assert!(read.capacity() <= (claimed + 1).max(1 << 16), "{} bytes of memory", read.capacity());
    breaks_18(whole)
}

/// Contents that claim more and less than there is, and contents that are wrong, before few and many lines.
#[test]
fn sheets_of_all_lengths() {
    for lines in [0, 1, 2, 7, 8, 9, 10_000, 100_000] {
        let whole = sheet(&vec![(2, 3, 4); lines]);
        assert!(!check_sheet(&whole));
        for by in [-8, -7, -6, -1, 1, 6, 7, 8, 65_536, 7 * 65_536, 400_000_000] {
            let mut other = whole.clone();
            other[7..11].copy_from_slice(&((7 * lines as i64 + by) as u32).to_le_bytes());
            assert!(check_sheet(&other), "{lines} lines, length by {by}");
            if by > 0 && by < 1_000_000 {
                other.resize(whole.len() + by as usize, 0);
                assert!(check_sheet(&other), "{lines} lines and zeros, {by} bytes");
            }
            let size = whole.len() as i64 + by;
            if (0..10_000_000).contains(&size) {
                other = whole.clone();
                other.resize(size as usize, 2);
                assert!(check_sheet(&other), "{lines} lines, made {size} bytes");
            }
        }
        for at in 0..7 {
            let mut other = whole.clone();
            other[at] ^= 4;
            assert!(check_sheet(&other), "{lines} lines, byte {at}");
        }
    }
}
