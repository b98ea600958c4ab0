//! Roads as they are drawn: those side by side are one line of each sort.

use crate::files::{Edge, Network};
use std::collections::{BTreeMap, BTreeSet};

/// The two ends, the smaller number first.
pub type Ends = (u16, u16);

pub fn ends(a: u16, b: u16) -> Ends {
    (a.min(b), a.max(b))
}

/// So many roads of a sort, and the lines that show them.
#[derive(Default)]
pub struct Sort {
    pub count: usize,
    pub lines: BTreeSet<Ends>,
}

impl Sort {
    fn put(&mut self, ends: Ends) {
        self.count += 1;
        self.lines.insert(ends);
    }
}

#[derive(Default)]
pub struct Roads {
    /// Each line with the least seconds of its open roads.
    pub open: BTreeMap<Ends, u32>,
    pub open_count: usize,
    /// Closed by the sheet.
    pub shut: Sort,
    /// Open, and slower by the sheet.
    pub delayed: Sort,
}

impl Roads {
    /// Of a network, and of its roads as a sheet leaves them, none where that closes one.
    pub fn of(net: &Network, today: &[Option<Edge>]) -> Roads {
        let mut roads = Roads::default();
        for (old, new) in net.edges.iter().zip(today) {
            let ends = ends(old.first, old.second);
            let Some(new) = new else {
                roads.shut.put(ends);
                continue;
            };
            roads.open_count += 1;
            roads.open.entry(ends).and_modify(|s: &mut u32| *s = new.seconds.min(*s)).or_insert(new.seconds);
            if new.seconds > old.seconds {
                roads.delayed.put(ends);
            }
        }
        roads
    }

    /// All lines. Delayed ones are among the open.
    pub fn lines(&self) -> impl Iterator<Item = &Ends> {
        self.open.keys().chain(&self.shut.lines)
    }

    /// The seconds of a way: between two nodes it takes the quickest of the open roads.
    pub fn total(&self, way: &[u16]) -> u64 {
        way.windows(2).map(|step| self.open[&ends(step[0], step[1])] as u64).sum()
    }
}
