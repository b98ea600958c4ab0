//! Building in plain Rust with all the memory it likes, to measure the proved core against: adjacency lists, a binary heap, one search per crossing
//! node that ends when every wanted node is settled, backward marks. It serves the benchmark alone.

use crate::core::{Time, NO_ROADS, NO_WALK};
use crate::files::{self, Network};
use crate::form::*;
use std::cmp::Reverse;
use std::collections::BinaryHeap;

/// Seconds and a number of roads in one number, which is compared as they are: by the one, then by the other.
pub type Key = u64;

const ROADS_BITS: u32 = u16::BITS;

const fn key(seconds: u32, roads: u32) -> Key {
    (seconds as Key) << ROADS_BITS | roads as Key
}

pub const NONE: Key = key(NO_WALK, NO_ROADS);

/// Of a time of the core's.
pub fn key_of(time: Option<Time>) -> Key {
    time.map_or(NONE, |time| key(time.seconds, time.roads))
}

fn key_at(b: &[u8], at: usize) -> Key {
    let (seconds, roads) = files::value(b, at);
    key(seconds, roads as u32)
}

/// As a value of the lists and the table.
fn value_bytes(key: Key) -> [u8; VALUE_SIZE] {
    let bytes = key.to_le_bytes();
    [bytes[2], bytes[3], bytes[4], bytes[5], bytes[0], bytes[1]]
}

/// The edges at each node: where each leads, and what it costs.
pub struct Graph {
    pub start: Vec<usize>,
    pub arcs: Vec<(u32, Key)>,
}

impl Graph {
    pub fn of(net: &Network) -> Graph {
        let mut lists = vec![Vec::new(); net.nodes.len()];
        for e in &net.edges {
            lists[e.first as usize].push((e.second as u32, key(e.seconds, 1)));
            lists[e.second as usize].push((e.first as u32, key(e.seconds, 1)));
        }
        let mut start = vec![0];
        let mut arcs = Vec::new();
        for l in lists {
            arcs.extend(l);
            start.push(arcs.len());
        }
        Graph { start, arcs }
    }

    pub fn at(&self, u: usize) -> &[(u32, Key)] {
        &self.arcs[self.start[u]..self.start[u + 1]]
    }
}

/// A search's memory: times, and the nodes in the order in which they were settled.
pub struct Search {
    pub times: Vec<Key>,
    pub order: Vec<u32>,
    heap: BinaryHeap<Reverse<(Key, u32)>>,
}

impl Search {
    pub fn new(n: usize) -> Search {
        Search { times: vec![NONE; n], order: Vec::with_capacity(n), heap: BinaryHeap::new() }
    }

    /// From s, until `stop` says so of a node just settled.
    pub fn run(&mut self, graph: &Graph, s: usize, mut stop: impl FnMut(u32) -> bool) {
        self.times.fill(NONE);
        self.order.clear();
        self.heap.clear();
        self.times[s] = 0;
        self.heap.push(Reverse((0, s as u32)));
        while let Some(Reverse((d, u))) = self.heap.pop() {
            if d > self.times[u as usize] {
                continue;
            }
            self.order.push(u);
            if stop(u) {
                return;
            }
            for &(v, c) in graph.at(u as usize) {
                if d + c < self.times[v as usize] {
                    self.times[v as usize] = d + c;
                    self.heap.push(Reverse((d + c, v)));
                }
            }
        }
    }

    pub fn all(&mut self, graph: &Graph, s: usize) {
        self.run(graph, s, |_| false);
    }

    /// From s, until each of the `left` wanted nodes is settled.
    pub fn toward(&mut self, graph: &Graph, s: usize, wanted: &[bool], mut left: usize) {
        self.run(graph, s, |u| {
            left -= wanted[u as usize] as usize;
            left == 0
        });
    }
}

/// The radii of the squares of cells.
const INNER: i64 = 2;
const OUTER: i64 = 4;

pub struct Cells {
    pub of: Vec<(i64, i64)>,
}

impl Cells {
    pub fn over(nodes: &[(i32, i32)], g: u32) -> Cells {
        let (left, right) = (nodes.iter().map(|n| n.0).min().unwrap() as i64, nodes.iter().map(|n| n.0).max().unwrap() as i64);
        let (bottom, top) = (nodes.iter().map(|n| n.1).min().unwrap() as i64, nodes.iter().map(|n| n.1).max().unwrap() as i64);
        let spread = (right - left).max(top - bottom);
        let of = nodes.iter().map(|&(x, y)| ((x as i64 - left) * g as i64 / (spread + 1), (y as i64 - bottom) * g as i64 / (spread + 1))).collect();
        Cells { of }
    }

    fn within(&self, r: i64, c: (i64, i64), v: usize) -> bool {
        (self.of[v].0 - c.0).abs() <= r && (self.of[v].1 - c.1).abs() <= r
    }

    pub fn far(&self, s: usize, t: usize) -> bool {
        !self.within(OUTER, self.of[s], t)
    }
}

/// The crossing nodes of the square of radius r about c, as marks and as a list.
fn crossing(net: &Network, cells: &Cells, r: i64, c: (i64, i64)) -> Vec<u32> {
    let mut nodes: Vec<u32> = net
        .edges
        .iter()
        .filter(|e| cells.within(r, c, e.first as usize) != cells.within(r, c, e.second as usize))
        .map(|e| e.first.min(e.second) as u32)
        .collect();
    nodes.sort_unstable();
    nodes.dedup();
    nodes
}

/// The oracle's bytes.
pub fn build(network: &[u8], g: u32) -> Vec<u8> {
    let net = files::network(network);
    let n = net.nodes.len();
    let graph = Graph::of(&net);
    let cells = Cells::over(&net.nodes, g);
    let mut search = Search::new(n);
    let mut access: Vec<Vec<u32>> = vec![Vec::new(); n];
    let mut first = std::collections::HashMap::new();
    for u in 0..n {
        let at = *first.entry(cells.of[u]).or_insert(u);
        if at == u {
            access[u] = cell_access(&net, &graph, &cells, cells.of[u], &mut search);
        } else {
            access[u] = access[at].clone();
        }
    }
    let mut is_transit = vec![false; n];
    access.iter().flatten().for_each(|&a| is_transit[a as usize] = true);
    let transit: Vec<u32> = (0..n as u32).filter(|&v| is_transit[v as usize]).collect();
    let mut index = vec![0u16; n];
    transit.iter().enumerate().for_each(|(i, &v)| index[v as usize] = i as u16);
    let mut bodies = net.bodies();
    bodies.push((g as u16).to_le_bytes().to_vec());
    bodies.push(transit.iter().flat_map(|&v| (v as u16).to_le_bytes()).collect());
    let (mut starts, mut lists) = (Vec::new(), Vec::new());
    let mut wanted = vec![false; n];
    for (u, list) in access.iter().enumerate() {
        list.iter().for_each(|&a| wanted[a as usize] = true);
        search.toward(&graph, u, &wanted, list.len());
        list.iter().for_each(|&a| wanted[a as usize] = false);
        starts.extend(((START_SIZE * n + lists.len()) as u32).to_le_bytes());
        lists.extend((list.len() as u16).to_le_bytes());
        for &a in list {
            lists.extend(index[a as usize].to_le_bytes());
            lists.extend(value_bytes(search.times[a as usize]));
        }
    }
    starts.extend(lists);
    bodies.push(starts);
    let mut table = Vec::with_capacity(VALUE_SIZE * transit.len() * transit.len());
    for &a in &transit {
        search.all(&graph, a as usize);
        for &b in &transit {
            table.extend(value_bytes(search.times[b as usize]));
        }
    }
    bodies.push(table);
    files::file(files::Kind::Oracle, &bodies)
}

/// One search per crossing node of the cell, then marks backward over the settle order: a node is marked when it is wanted or leads on to a marked one.
fn cell_access(net: &Network, graph: &Graph, cells: &Cells, c: (i64, i64), search: &mut Search) -> Vec<u32> {
    let n = net.nodes.len();
    let (own, inner, outer) = (crossing(net, cells, 0, c), crossing(net, cells, INNER, c), crossing(net, cells, OUTER, c));
    let mut wanted = vec![false; n];
    outer.iter().for_each(|&q| wanted[q as usize] = true);
    let mut through = vec![false; n];
    let mut marked = vec![false; n];
    for p in own {
        search.toward(graph, p as usize, &wanted, outer.len());
        marked.fill(false);
        for &u in search.order.iter().rev() {
            let d = search.times[u as usize];
            let leads = || graph.at(u as usize).iter().any(|&(v, cost)| marked[v as usize] && d + cost == search.times[v as usize]);
            if wanted[u as usize] || leads() {
                marked[u as usize] = true;
                through[u as usize] = true;
            }
        }
    }
    inner.into_iter().filter(|&a| through[a as usize]).collect()
}

// ---- The check ----

/// Numbers of 16 bits that rise, each below `limit`.
fn rising(body: &[u8], limit: usize) -> bool {
    let numbers = || body.chunks_exact(NUMBER_SIZE).map(|c| files::read16(c, 0));
    body.len().is_multiple_of(NUMBER_SIZE) && numbers().zip(numbers().skip(1)).all(|(a, b)| a < b) && numbers().next_back().is_none_or(|k| (k as usize) < limit)
}

fn in_range((seconds, roads): files::Value) -> bool {
    let roads = roads as u32;
    seconds <= MAX_VALUE_SECONDS && roads <= MAX_VALUE_ROADS || (seconds, roads) == (NO_WALK, NO_ROADS)
}

/// The size of the list at a position, its count included.
fn list_size(access: &[u8], at: usize) -> usize {
    COUNT_SIZE + LIST_ENTRY_SIZE * files::read16(access, at) as usize
}

fn lists_sound(access: &[u8], n: usize, transit: usize) -> bool {
    if access.len() < START_SIZE * n {
        return false;
    }
    let mut next = START_SIZE * n;
    for u in 0..n {
        if files::read32(access, START_SIZE * u) as usize != next || access.len() < next + COUNT_SIZE {
            return false;
        }
        let end = next + list_size(access, next);
        let Some(list) = access.get(next..end) else { return false };
        let mut least = 0;
        for (index, value) in files::list_entries(list) {
            let index = index as usize;
            if index < least || index >= transit || !in_range(value) {
                return false;
            }
            least = index + 1;
        }
        next = end;
    }
    next == access.len()
}

/// Whether an oracle keeps rules 1 to 11 and 21.
pub fn well_shaped(o: &[u8]) -> bool {
    if o.len() < entry_at(ORACLE_BODIES) || o[..HEAD_SIZE] != [ORACLE_EDITION, ORACLE_BODIES as u8] {
        return false;
    }
    let mut next = entry_at(ORACLE_BODIES);
    for k in 0..ORACLE_BODIES {
        let entry = &o[entry_at(k)..];
        if entry[0] as usize != k + 1 || files::read32(entry, 1) as usize != next {
            return false;
        }
        next += files::read32(entry, 5) as usize;
    }
    next == o.len() && bodies_sound(|k| files::body(o, k).unwrap())
}

/// Rules 3 to 11 and 21: an empty body 3 keeps both of its rules.
fn bodies_sound<'a>(body: impl Fn(usize) -> &'a [u8]) -> bool {
    let (nodes, edges, table) = (body(NODES), body(EDGES), body(TABLE));
    let (n, m, transit) = (nodes.len() / NODE_SIZE, edges.len() / EDGE_SIZE, body(TRANSIT).len() / NUMBER_SIZE);
    let end = |e: &[u8], at: usize| files::read16(e, at) as usize;
    let sound = |e: &[u8]| end(e, 0) < n && end(e, 2) < n && end(e, 0) != end(e, 2) && files::read32(e, 4) <= MAX_SECONDS;
    nodes.len().is_multiple_of(NODE_SIZE)
        && (1..=MAX_NODES).contains(&n)
        && nodes.chunks_exact(COORDINATE_SIZE).all(|c| (-MAX_METRES..=MAX_METRES).contains(&(files::read32(c, 0) as i32)))
        && edges.len().is_multiple_of(EDGE_SIZE)
        && m <= MAX_EDGES
        && edges.chunks_exact(EDGE_SIZE).all(sound)
        && body(CLOSED).is_empty()
        && body(GRID).len() == GRID_SIZE
        && (1..=MAX_GRID).contains(&(files::read16(body(GRID), 0) as u32))
        && rising(body(TRANSIT), n)
        && lists_sound(body(ACCESS), n, transit)
        && table.len() == VALUE_SIZE * transit * transit
        && table.chunks_exact(VALUE_SIZE).all(|c| in_range(files::value(c, 0)))
}

// ---- Answers ----

/// A far answer from an oracle's lists and table, without checking it.
pub struct Tables<'a> {
    access: &'a [u8],
    table: &'a [u8],
    transit: usize,
}

impl<'a> Tables<'a> {
    pub fn of(oracle: &'a [u8]) -> Tables<'a> {
        let body = |k| files::body(oracle, k).unwrap();
        Tables { access: body(ACCESS), table: body(TABLE), transit: files::transit_nodes(oracle).len() }
    }

    fn list(&self, u: usize) -> impl Iterator<Item = (usize, Key)> + '_ {
        let at = files::read32(self.access, START_SIZE * u) as usize;
        files::list_entries(&self.access[at..][..list_size(self.access, at)]).map(|(index, (seconds, roads))| (index as usize, key(seconds, roads as u32)))
    }

    /// `NONE` for none.
    pub fn far(&self, s: usize, t: usize) -> Key {
        let mut least = NONE;
        let entering: Vec<(usize, Key)> = self.list(t).filter(|e| e.1 != NONE).collect();
        for (i, a) in self.list(s).filter(|e| e.1 != NONE) {
            for &(j, b) in &entering {
                let between = key_at(self.table, VALUE_SIZE * (i * self.transit + j));
                if between != NONE {
                    least = least.min(a + between + b);
                }
            }
        }
        least
    }
}

/// All times between starts and ends, row by row, `NONE` for none. A start has one search, which ends when its local ends are settled, or none where
/// all its ends are far.
pub fn block(graph: &Graph, cells: &Cells, tables: &Tables, search: &mut Search, starts: &[u32], ends: &[u32]) -> Vec<Key> {
    let mut times = Vec::with_capacity(starts.len() * ends.len());
    for s in starts.iter().map(|&s| s as usize) {
        let mut local: Vec<u32> = ends.iter().copied().filter(|&t| !cells.far(s, t as usize)).collect();
        local.sort_unstable();
        local.dedup();
        if !local.is_empty() {
            let mut left = local.len();
            search.run(graph, s, |u| {
                left -= local.contains(&u) as usize;
                left == 0
            });
        }
        times.extend(ends.iter().map(|&t| t as usize).map(|t| if cells.far(s, t) { tables.far(s, t) } else { search.times[t] }));
    }
    times
}

/// The first least walk by node numbers.
pub fn way(graph: &Graph, search: &mut Search, s: usize, t: usize) -> Vec<u16> {
    search.run(graph, t, |u| u as usize == s);
    let d = &search.times;
    if d[s] == NONE {
        return Vec::new();
    }
    let mut nodes = vec![s as u16];
    let mut u = s;
    while u != t {
        u = graph.at(u).iter().filter(|&&(v, c)| d[v as usize] != NONE && c + d[v as usize] == d[u]).map(|&(v, _)| v).min().unwrap() as usize;
        nodes.push(u as u16);
    }
    nodes
}
