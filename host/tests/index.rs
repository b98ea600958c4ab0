//! Networks that try the index of the roads at each place, which the core keeps in what its working words have left over. There each road has a link for each
//! of its ends; with too many roads for that, places list the blocks of roads that have one of theirs, in blocks as small as fit; with two places in all
//! not even these fit. So: as many roads as fit, one less and one more, and many times as many; many between two places, or all at one; in all positions
//! some that are as quick as can be, so that one that is passed over shows; in any order. No answer may tell which form the index has.

mod common;

use common::networks::Plan;
use common::reference::{self, Built, Outcome, SIDE};
use common::roads::{chain, lattice, line, plan, scattered, shuffled, side_by_side, sorted, star, with_quick, Quick, Road, QUICK};
use common::{check_audit, check_build, NetworkCase, OracleCase};
use jukesogbi::plain;

const PLACES: usize = 4_096;
const ROADS: usize = 16_384;

/// A grid without far pairs for its number, one without far pairs for its squares, and two with.
const GRIDS: [u32; 4] = [1, 3, 16, 64];

// ---- Questions ----

/// Builds under g and audits: the oracle is the reference's, or where that would take long, plain Rust's.
fn built(name: &str, plan: &Plan, g: u32) -> OracleCase {
    let (name, n) = (format!("{name} ({} places, {} roads)", plan.places.len(), plan.roads.len()), plan.places.len());
    let text = name.clone();
    let network = NetworkCase::new(move || text.clone(), plan.bytes());
    let bytes = if n <= 64 && plan.roads.len() <= 500 { network.reference.oracle(g).bytes.clone() } else { plain::build(&plan.bytes(), g) };
    let values = Built { length: bytes.len(), transit: reference::body(&bytes, 5).len() / 2 };
    let words = network.words();
    check_build(&network.input, g, words, bytes.len(), &Outcome { result: Ok(values), zeroed: words, written: bytes.clone() });
    let asked = OracleCase::new(move || format!("{name} under {g}"), bytes);
    check_audit(&asked.input, words, &Outcome { result: Ok(()), zeroed: words, written: Vec::new() });
    asked
}

/// Times, ways and a block, by calls that check and by one opening.
fn ask(asked: &OracleCase, pairs: &[(usize, usize)]) {
    let n = asked.reference.size();
    let mut opened = asked.open(asked.words()).unwrap_or_else(|rule| panic!("{}: refused {rule}", (asked.input.name)()));
    for &(s, t) in pairs {
        assert!(opened.time(s as u32, t as u32).is_ok());
        assert!(opened.way(t as u32, s as u32, 2 * n).is_ok());
    }
    let side = |pick: fn(&(usize, usize)) -> usize| pairs.iter().map(|p| pick(p) as u32).take(SIDE).collect::<Vec<u32>>();
    assert!(opened.block(&side(|p| p.0), &side(|p| p.1)).is_ok());
}

/// A few pairs from all over, among them the first and the last place.
fn pairs(n: usize, count: usize) -> Vec<(usize, usize)> {
    (0..count).map(|i| (i * (n - 1) / (count - 1).max(1), (5 * i + n - 1) % n)).collect()
}

fn build_and_ask(name: &str, plan: &Plan, grids: &[u32], pairs: &[(usize, usize)]) {
    for &g in grids {
        ask(&built(name, plan, g), pairs);
    }
}

// ---- As many roads as have links, and about multiples of that ----

/// The words of the index with n places, 2 or more of them.
fn index_words(n: usize) -> usize {
    5 * n - 5 * (n / 32 + 1) - 3
}

/// Half a word is for each place, and half a word for each end of a road.
fn linked_at_most(n: usize) -> usize {
    (2 * index_words(n) - n) / 2
}

/// Blocks whose roads all lead between the same two places: a word is for each place, and one for each of the two and each block. With two places in all
/// there are none; with more a single block with all roads always fits, whatever places they are at.
fn blocks_at_most(n: usize) -> usize {
    (index_words(n) - n) / 2
}

/// About the most roads with links, some multiples of that, about the most in blocks of 4 and of 16, and the most there can be.
fn counts(n: usize) -> Vec<usize> {
    let (links, blocks) = (linked_at_most(n), blocks_at_most(n));
    let mut all = vec![links - 1, links, links + 1, 2 * links, 8 * links, ROADS - 1, ROADS];
    all.extend([4, 16].iter().flat_map(|size| [size * blocks, size * blocks + 1]));
    all.retain(|&count| count <= ROADS);
    all.sort_unstable();
    all.dedup();
    all
}

/// Roads of one kind, so many over n places.
type Kind = (&'static str, fn(usize, usize) -> Vec<Road>);

const KINDS: [Kind; 6] = [
    ("scattered", scattered),
    ("sorted", sorted),
    ("shuffled", |n, count| shuffled(sorted(n, count))),
    ("chain", chain),
    ("side by side", |n, count| side_by_side(0, n - 1, count)),
    ("star", |n, count| star(n, n / 2, count.div_ceil(n - 1)).into_iter().take(count).collect()),
];

/// Each count of each kind, with quick roads in a position that goes round; those about the most with links with all.
fn about_what_fits(n: usize) {
    let (mut turn, links) = (n, linked_at_most(n));
    for count in counts(n) {
        for (kind, roads) in KINDS {
            for round in 0..if count.abs_diff(links) <= 1 { QUICK.len() } else { 1 } {
                turn += 1;
                let quick = QUICK[turn % QUICK.len()];
                let plan = plan(lattice(n), with_quick(roads(n, count), quick));
                let name = format!("{kind}, quick: {quick:?}");
                // In blocks, a search may look at all roads for each place: where that takes long, there are no searches but those of the questions.
                if n * n * count <= 5_000_000 || (round == 0 && count <= links) {
                    build_and_ask(&name, &plan, &[GRIDS[turn % 2], GRIDS[2 + turn / 2 % 2]], &pairs(n, 4));
                } else {
                    build_and_ask(&name, &plan, &[GRIDS[turn % 2]], &pairs(n, 2));
                }
            }
        }
    }
}

#[test]
fn few_places() {
    [2, 3].into_iter().for_each(about_what_fits);
}

#[test]
fn about_32_places() {
    [31, 32, 33].into_iter().for_each(about_what_fits);
}

#[test]
fn about_64_places() {
    about_what_fits(64);
}

#[test]
fn about_100_places() {
    about_what_fits(100);
}

#[test]
fn about_257_places() {
    about_what_fits(257);
}

// ---- Many places ----

/// Each kind of roads, so many, under a grid without far pairs.
fn many(n: usize, count: usize, kinds: &[Kind]) {
    for (at, (kind, roads)) in kinds.iter().enumerate() {
        let quick = QUICK[(at + count) % QUICK.len()];
        build_and_ask(&format!("{kind}, quick: {quick:?}"), &plan(lattice(n), with_quick(roads(n, count), quick)), &[GRIDS[count % 2]], &pairs(n, 2));
    }
}

#[test]
fn about_1024_and_2048_places() {
    for n in [1_024, 2_048] {
        let links = linked_at_most(n);
        [links - 1, links, links + 1].into_iter().for_each(|count| many(n, count, &KINDS));
    }
}

/// With so many places as still have links for the most roads, and one less.
#[test]
fn most_roads_about_what_fits() {
    let n = (2..).find(|&n| linked_at_most(n) >= ROADS).unwrap();
    [n - 1, n].into_iter().for_each(|n| many(n, ROADS, &KINDS[..2]));
}

#[test]
fn most_places_and_roads() {
    many(PLACES, ROADS, &KINDS[..2]);
}

/// A town with most places in one cell, and a line of the others far from it and without a road to it: the oracle has far pairs, but few searches build it.
#[test]
fn a_town_and_a_line_of_the_most() {
    let (outside, town): (Vec<usize>, Vec<usize>) = (0..PLACES).partition(|u| u % 40 == 0);
    let within = |places: &[usize], roads: Vec<Road>| roads.into_iter().map(|(u, v, seconds)| (places[u], places[v], seconds)).collect::<Vec<_>>();
    let along = chain(outside.len(), 3 * outside.len());
    let roads = [within(&town, scattered(town.len(), ROADS - along.len())), within(&outside, along)].concat();
    let places = (0..PLACES as i32).map(|u| if u % 40 == 0 { (100 * u, 0) } else { (u % 64, 300_000 + u / 64) }).collect();
    let plan = plan(places, with_quick(shuffled(roads), Quick::Some));
    build_and_ask("a town and a line", &plan, &[16, 64], &[(0, 4_080), (4_000, 400), (1, 4_001), (2_345, 7), (0, 1)]);
}

// ---- One and two places ----

#[test]
fn one_place() {
    for g in GRIDS {
        ask(&built("one place", &plan(line(1), vec![]), g), &[(0, 0)]);
    }
}

/// Every small number of roads between two places, with each position of quick ones.
#[test]
fn two_places() {
    for count in (0..=20).chain([31, 32, 33, 63, 64, 65, 127, 128, 129]) {
        for (at, &quick) in QUICK.iter().enumerate() {
            let plan = plan(line(2), with_quick(side_by_side(at % 2, 1 - at % 2, count), quick));
            build_and_ask(&format!("two places, quick: {quick:?}"), &plan, &[1, 16], &[(0, 1), (1, 0), (0, 0)]);
        }
    }
}

// ---- The most roads between two places ----

#[test]
fn most_roads_between_two() {
    for (at, (n, a, b)) in [(2, 0, 1), (2, 1, 0), (3, 0, 2), (3, 2, 1), (64, 0, 63), (64, 31, 32), (64, 63, 5)].into_iter().enumerate() {
        let quick = [Quick::None, Quick::Some, Quick::EverySecond][at % 3];
        let plan = plan(lattice(n), with_quick(side_by_side(a, b, ROADS), quick));
        build_and_ask(&format!("most roads from {a} to {b}, quick: {quick:?}"), &plan, &GRIDS, &[(a, b), (b, a), (a, a), (0, n - 1)]);
    }
}

#[test]
fn most_roads_between_two_of_the_most() {
    for (a, b) in [(0, 1), (4_095, 0), (2_047, 4_094)] {
        let plan = plan(lattice(PLACES), with_quick(side_by_side(a, b, ROADS), Quick::None));
        build_and_ask(&format!("most roads from {a} to {b}"), &plan, &[1, 16], &[(a, b), (b, a), (7, b)]);
    }
}

// ---- Stars ----

/// The hub first, in the middle and last.
fn hubs(n: usize) -> [usize; 3] {
    [0, n / 2, n - 1]
}

#[test]
fn small_stars() {
    for n in [2, 3, 31, 32, 33, 64, 100] {
        for (at, hub) in hubs(n).into_iter().enumerate() {
            let (once, four) = (star(n, hub, 1), star(n, hub, 4));
            for (name, roads) in [("star", once), ("star of four", four.clone()), ("star of four in no order", shuffled(four))] {
                let plan = plan(lattice(n), with_quick(roads, QUICK[(n + at) % QUICK.len()]));
                build_and_ask(&format!("{name}, hub {hub}"), &plan, &GRIDS, &pairs(n, 4));
            }
        }
    }
}

#[test]
fn great_stars() {
    for hub in hubs(PLACES) {
        for (name, times) in [("great star", 1), ("great star of four", 4)] {
            let plan = plan(lattice(PLACES), with_quick(star(PLACES, hub, times), Quick::None));
            // With the hub first, no other place is the lesser end of a road, and few searches build the oracle.
            let grids: &[u32] = if hub == 0 && times == 1 { &GRIDS } else { &[3] };
            build_and_ask(&format!("{name}, hub {hub}"), &plan, grids, &[(1, hub), (hub, PLACES - 2), (PLACES - 3, 2)]);
        }
    }
}

/// One place has a part in every road, wherever it stands.
#[test]
fn a_great_star_in_no_order() {
    let plan = plan(lattice(PLACES), with_quick(shuffled(star(PLACES, 17, 4)), Quick::None));
    build_and_ask("great star of four in no order", &plan, &[3], &[(17, 5), (3_000, 4_000)]);
}

// ---- Chains ----

#[test]
fn chains() {
    for n in [2, 3, 31, 32, 33, 64, 100, 257] {
        for (name, places) in [("chain along a line", line(n)), ("chain by rows", lattice(n))] {
            for (at, roads) in [chain(n, n - 1), shuffled(chain(n, n - 1)), shuffled(chain(n, 3 * n))].into_iter().enumerate() {
                let quick = [Quick::None, Quick::EverySecond, Quick::First][(at + n) % 3];
                build_and_ask(&format!("{name}, quick: {quick:?}"), &plan(places.clone(), with_quick(roads, quick)), &GRIDS, &pairs(n, 4));
            }
        }
    }
}

#[test]
fn a_chain_of_the_most() {
    let plan = plan(line(PLACES), with_quick(chain(PLACES, PLACES - 1), Quick::Last));
    build_and_ask("chain of the most", &plan, &[3, 16], &[(0, PLACES - 1), (PLACES - 1, 1_000), (2_000, 2_001)]);
}
