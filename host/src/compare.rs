//! Two oracles side by side, pair by pair: how far a change between two editions spreads (document 02, T-08).

use crate::core::SIDE;
use crate::files;
use crate::oracle::Oracle;
use std::cmp::{Ordering, Reverse};
use std::sync::atomic::{self, AtomicUsize};
use std::thread;

/// How the second oracle answers all pairs of places beside the first, by seconds. A pair has a start and an end, which may be one place; each counts once.
#[derive(Clone, Copy, Debug, Default, PartialEq, Eq)]
pub struct Comparison {
    /// Pairs with more seconds in the second.
    pub slower: u64,
    pub as_quick: u64,
    pub quicker: u64,
    /// Pairs with a time in the first alone.
    pub newly_none: u64,
    /// Pairs with a time in the second alone.
    pub newly_reachable: u64,
    /// Pairs with a time in neither.
    pub none: u64,
    /// Where some pair is slower.
    pub largest: Option<Rise>,
}

/// So many seconds more for a pair.
#[derive(Clone, Copy, Debug, PartialEq, Eq)]
pub struct Rise {
    pub seconds: u32,
    pub pair: (u32, u32),
}

/// The larger rise, or of two that are as large that of the first pair, by start and then by end.
fn foremost(a: Option<Rise>, b: Option<Rise>) -> Option<Rise> {
    a.into_iter().chain(b).min_by_key(|rise| (Reverse(rise.seconds), rise.pair))
}

impl Comparison {
    pub fn pairs(&self) -> u64 {
        self.slower + self.as_quick + self.quicker + self.newly_none + self.newly_reachable + self.none
    }

    /// Counts the pairs between these places, of which there are 12 at the most on either side.
    fn put_block(&mut self, starts: &[u32], ends: &[u32], first: &mut Oracle, second: &mut Oracle) {
        let block = |oracle: &mut Oracle| oracle.block(starts, ends).expect("an opened oracle refuses no block of its places");
        let (before, after) = (block(first), block(second));
        for (i, &s) in starts.iter().enumerate() {
            for (j, &t) in ends.iter().enumerate() {
                self.put((s, t), (before.seconds(i, j), after.seconds(i, j)));
            }
        }
    }

    /// Counts a pair, with its seconds in the first and in the second.
    fn put(&mut self, pair: (u32, u32), seconds: (Option<u32>, Option<u32>)) {
        let count = match seconds {
            (None, None) => &mut self.none,
            (Some(_), None) => &mut self.newly_none,
            (None, Some(_)) => &mut self.newly_reachable,
            (Some(before), Some(after)) => match after.cmp(&before) {
                Ordering::Less => &mut self.quicker,
                Ordering::Equal => &mut self.as_quick,
                Ordering::Greater => {
                    self.largest = foremost(self.largest, Some(Rise { seconds: after - before, pair }));
                    &mut self.slower
                }
            },
        };
        *count += 1;
    }

    /// The two together, of different pairs.
    fn with(self, other: Comparison) -> Comparison {
        Comparison {
            slower: self.slower + other.slower,
            as_quick: self.as_quick + other.as_quick,
            quicker: self.quicker + other.quicker,
            newly_none: self.newly_none + other.newly_none,
            newly_reachable: self.newly_reachable + other.newly_reachable,
            none: self.none + other.none,
            largest: foremost(self.largest, other.largest),
        }
    }
}

/// Compares them, or none where their numbers of places differ. They are asked for blocks, as a start's search then serves up to 12 ends, by as many threads
/// as the machine has processors.
pub fn compare(first: &Oracle, second: &Oracle) -> Option<Comparison> {
    let places = files::node_count(first.bytes());
    if places != files::node_count(second.bytes()) {
        return None;
    }
    let places: Vec<u32> = (0..places as u32).collect();
    let (sides, taken): (Vec<&[u32]>, _) = (places.chunks(SIDE).collect(), AtomicUsize::new(0));
    // The starts that nobody has taken yet, twelve by twelve.
    let share = || {
        let (mut first, mut second, mut all) = (first.clone(), second.clone(), Comparison::default());
        while let Some(starts) = sides.get(taken.fetch_add(1, atomic::Ordering::Relaxed)) {
            sides.iter().for_each(|ends| all.put_block(starts, ends, &mut first, &mut second));
        }
        all
    };
    let threads = thread::available_parallelism().map_or(1, usize::from).min(sides.len());
    Some(thread::scope(|scope| {
        // Where a thread cannot be had, the others do its share.
        let others: Vec<_> = (1..threads).filter_map(|_| thread::Builder::new().spawn_scoped(scope, share).ok()).collect();
        let own = share();
        others.into_iter().fold(own, |all, other| all.with(other.join().expect("a share comes to its end")))
    }))
}
