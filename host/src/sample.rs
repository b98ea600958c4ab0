//! Road-like networks for trying things out: scattered nodes, joined by roads where no third node lies nearer to both ends
//! (the relative neighbourhood graph: about 1.3 roads a node, all in one piece).

use crate::files::{Edge, Network};
use std::collections::HashSet;

/// A small generator of numbers (splitmix64), so that a seed gives one network everywhere.
#[derive(Clone, Debug)]
pub struct Random(pub u64);

impl Random {
    pub fn number(&mut self) -> u64 {
        self.0 = self.0.wrapping_add(0x9e37_79b9_7f4a_7c15);
        let mut z = self.0;
        z = (z ^ (z >> 30)).wrapping_mul(0xbf58_476d_1ce4_e5b9);
        z = (z ^ (z >> 27)).wrapping_mul(0x94d0_49bb_1331_11eb);
        z ^ (z >> 31)
    }

    /// A number below n, which is not 0.
    pub fn below(&mut self, n: u64) -> u64 {
        self.number() % n
    }

    /// True once in n times.
    pub fn once_in(&mut self, n: u64) -> bool {
        self.below(n) == 0
    }

    pub fn shuffle<T>(&mut self, list: &mut [T]) {
        for i in (1..list.len()).rev() {
            list.swap(i, self.below(i as u64 + 1) as usize);
        }
    }
}

/// Metres between neighbouring nodes, about.
const SPACING: i64 = 900;

/// Nodes over a square, one in each of n patches of it, so that they are spread but not in rows.
fn scatter(n: usize, random: &mut Random) -> Vec<(i32, i32)> {
    let side = (1..).find(|s| s * s >= n).unwrap();
    let mut patches: Vec<usize> = (0..side * side).collect();
    random.shuffle(&mut patches);
    patches.truncate(n);
    patches.sort_unstable();
    let middle = side as i64 * SPACING / 2;
    patches
        .iter()
        .map(|p| {
            let (column, row) = ((p % side) as i64, (p / side) as i64);
            let mut place = |k: i64| k * SPACING - middle + random.below(SPACING as u64 * 9 / 10) as i64;
            (place(column) as i32, place(row) as i32)
        })
        .collect()
}

fn square(a: (i32, i32), b: (i32, i32)) -> i64 {
    let (dx, dy) = ((a.0 - b.0) as i64, (a.1 - b.1) as i64);
    dx * dx + dy * dy
}

/// The other nodes by nearness, as many as a road could lead to.
fn neighbours(nodes: &[(i32, i32)], u: usize) -> Vec<usize> {
    let mut others: Vec<usize> = (0..nodes.len()).filter(|&v| v != u).collect();
    let near = 24.min(others.len());
    if near == 0 {
        return others;
    }
    others.select_nth_unstable_by_key(near - 1, |&v| square(nodes[u], nodes[v]));
    others.truncate(near);
    others.sort_unstable_by_key(|&v| square(nodes[u], nodes[v]));
    others
}

/// The road from u to v, by their distance.
fn road(nodes: &[(i32, i32)], u: usize, v: usize, random: &mut Random) -> Edge {
    // Main roads at 22 metres a second, others at 9 to 15.
    let speed = if random.once_in(5) { 22 } else { 9 + random.below(7) as i64 };
    let metres = (square(nodes[u], nodes[v]) as f64).sqrt() as i64;
    Edge { first: u as u16, second: v as u16, seconds: (metres / speed).clamp(1, 100_000) as u32 }
}

/// A network of n nodes, 1 to 4,096.
pub fn network(n: usize, seed: u64) -> Network {
    joined(n, &mut Random(seed))
}

fn joined(n: usize, random: &mut Random) -> Network {
    let nodes = scatter(n, random);
    let near: Vec<Vec<usize>> = (0..n).map(|u| neighbours(&nodes, u)).collect();
    let mut edges = Vec::new();
    for u in 0..n {
        for &v in near[u].iter().filter(|&&v| u < v) {
            let d = square(nodes[u], nodes[v]);
            let between = near[u].iter().any(|&w| w != v && square(nodes[u], nodes[w]) < d && square(nodes[v], nodes[w]) < d);
            if !between {
                edges.push(road(&nodes, u, v, random));
            }
        }
    }
    Network { nodes, edges }
}

/// Metres between nodes that a further road may join, at the most.
const NEAR: i64 = 4000;

/// All pairs of nodes that are near each other.
fn near_pairs(nodes: &[(i32, i32)]) -> Vec<(usize, usize)> {
    let all = (0..nodes.len()).flat_map(|u| (u + 1..nodes.len()).map(move |v| (u, v)));
    all.filter(|&(u, v)| square(nodes[u], nodes[v]) <= NEAR * NEAR).collect()
}

/// `network` with more roads, so many in all, or its own where these are more already; all of them in random order. The further ones join nodes that are near
/// each other, and the same two nodes again only where all such pairs have a road. A single node has none.
pub fn unordered(n: usize, roads: usize, seed: u64) -> Network {
    let mut random = Random(seed);
    let Network { nodes, mut edges } = joined(n, &mut random);
    let taken: HashSet<(usize, usize)> = edges.iter().map(|e| (e.first as usize, e.second as usize)).collect();
    let mut pairs = near_pairs(&nodes);
    random.shuffle(&mut pairs);
    // Those without a road come first.
    pairs.sort_by_key(|pair| taken.contains(pair));
    let further = roads.saturating_sub(edges.len());
    edges.extend(pairs.iter().cycle().take(further).map(|&(u, v)| road(&nodes, u, v, &mut random)));
    random.shuffle(&mut edges);
    Network { nodes, edges }
}

/// Metres between the two nodes of a wide junction, at the most.
const WIDE: u64 = 20;

/// A network of n nodes in which about two of five are halves of wide junctions: of two nodes near each other, joined by a road of no time, each with some of
/// the roads that meet there.
pub fn junctions(n: usize, seed: u64) -> Network {
    let mut random = Random(seed);
    let whole = n - n / 5;
    let Network { mut nodes, mut edges } = joined(whole, &mut random);
    let mut widened: Vec<usize> = (0..whole).collect();
    random.shuffle(&mut widened);
    for &u in &widened[..n - whole] {
        let (half, (x, y)) = (nodes.len() as u16, nodes[u]);
        nodes.push((x + 1 + random.below(WIDE) as i32, y));
        for edge in &mut edges {
            for end in [&mut edge.first, &mut edge.second] {
                if *end as usize == u && random.once_in(2) {
                    *end = half;
                }
            }
        }
        edges.push(Edge { first: u as u16, second: half, seconds: 0 });
    }
    Network { nodes, edges }
}
