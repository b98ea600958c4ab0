//! Well-shaped oracles that were never built.

use super::networks::{pick, Plan};
use super::reference::{self, bytes_16, bytes_32, value_at, value_bytes, Value, MOST_ROADS, MOST_SECONDS, NO_ROADS, NO_WALK};
use jukesogbi::sample::Random;

/// Bodies 5 to 7 as numbers, to change and to write again.
#[derive(Clone)]
pub struct Tables {
    pub transit: Vec<usize>,
    /// For each place, its entries: index and value, which is seconds and roads.
    pub lists: Vec<Vec<(usize, Value)>>,
    pub table: Vec<Vec<Value>>,
}

impl Tables {
    pub fn of(oracle: &[u8], n: usize) -> Tables {
        let (transit, access, table) = (reference::body(oracle, 5), reference::body(oracle, 6), reference::body(oracle, 7));
        let list = |u: usize| {
            let start = reference::number_32(access, 4 * u) as usize;
            let count = reference::number_16(access, start) as usize;
            (0..count).map(|i| &access[start + 2 + 8 * i..]).map(|e| (reference::number_16(e, 0) as usize, value_at(e, 2))).collect()
        };
        let t = transit.len() / 2;
        Tables {
            transit: (0..t).map(|i| reference::number_16(transit, 2 * i) as usize).collect(),
            lists: (0..n).map(list).collect(),
            table: (0..t).map(|i| (0..t).map(|j| value_at(table, 6 * (t * i + j))).collect()).collect(),
        }
    }

    /// Transit places, lists and values that were never worked out, for so many places.
    pub fn random(random: &mut Random, n: usize) -> Tables {
        // Shares of 'no walk' from none to nearly all, and values from equal small ones to the greatest.
        let (without, habit) = (1 + random.below(6), random.below(4));
        let value = |random: &mut Random| match habit {
            _ if random.once_in(1 + without) => (NO_WALK, NO_ROADS),
            0 => (random.below(4) as u32, random.below(4) as u32),
            1 => (random.below(1_000) as u32, random.below(MOST_ROADS as u64 + 1) as u32),
            2 => (pick(random, &[0, MOST_SECONDS - 1, MOST_SECONDS]), pick(random, &[0, MOST_ROADS - 1, MOST_ROADS])),
            _ => (random.below(MOST_SECONDS as u64 + 1) as u32, random.below(MOST_ROADS as u64 + 1) as u32),
        };
        let transit: Vec<usize> = (0..n).filter(|_| !random.once_in(3)).collect();
        let share = 1 + random.below(3);
        let indices: Vec<Vec<usize>> = (0..n).map(|_| (0..transit.len()).filter(|_| random.once_in(share)).collect()).collect();
        let lists = indices.into_iter().map(|list| list.into_iter().map(|i| (i, value(random))).collect()).collect();
        let table = transit.iter().map(|_| transit.iter().map(|_| value(random)).collect()).collect();
        Tables { transit, lists, table }
    }

    pub fn oracle(&self, plan: &Plan, g: u32) -> Vec<u8> {
        self.file(plan.bodies(), g, value_bytes)
    }

    /// As it was in edition 1, until T-07: of a value there are seconds alone.
    pub fn edition_1(&self, bodies: [Vec<u8>; 3], g: u32) -> Vec<u8> {
        let mut bytes = self.file(bodies, g, |(seconds, _)| bytes_32(seconds as usize).to_vec());
        bytes[0] = 1;
        bytes
    }

    fn file(&self, bodies: [Vec<u8>; 3], g: u32, written: impl Fn(Value) -> Vec<u8>) -> Vec<u8> {
        let n = self.lists.len();
        let (mut starts, mut lists) = (Vec::new(), Vec::new());
        for list in &self.lists {
            starts.extend(bytes_32(4 * n + lists.len()));
            lists.extend(bytes_16(list.len()));
            for &(index, value) in list {
                lists.extend(bytes_16(index));
                lists.extend(written(value));
            }
        }
        let [places, roads, closed] = bodies;
        reference::file(&[
            places,
            roads,
            closed,
            bytes_16(g as usize).to_vec(),
            self.transit.iter().flat_map(|&a| bytes_16(a)).collect(),
            [starts, lists].concat(),
            self.table.iter().flatten().flat_map(|&v| written(v)).collect(),
        ])
    }

    /// Every value of the lists and the table.
    pub fn values(&mut self) -> Vec<&mut Value> {
        let lists = self.lists.iter_mut().flatten().map(|e| &mut e.1);
        lists.chain(self.table.iter_mut().flatten()).collect()
    }
}
