//! Network, oracle and sheet files: their bodies, and a network's bytes from its nodes and edges. For showing and making files only: the core reads for itself.

use crate::form::*;

/// A road of the scope document.
#[derive(Clone, Copy, Debug, PartialEq, Eq)]
pub struct Edge {
    pub first: u16,
    pub second: u16,
    pub seconds: u32,
}

#[derive(Clone, Debug, Default, PartialEq, Eq)]
pub struct Network {
    /// x and y in metres.
    pub nodes: Vec<(i32, i32)>,
    pub edges: Vec<Edge>,
}

/// A file of this kind with these bodies.
pub fn file(kind: Kind, bodies: &[Vec<u8>]) -> Vec<u8> {
    let mut out = vec![kind.edition(), bodies.len() as u8];
    let mut offset = entry_at(bodies.len());
    for (k, b) in bodies.iter().enumerate() {
        out.push(kind.first() + k as u8);
        out.extend((offset as u32).to_le_bytes());
        out.extend((b.len() as u32).to_le_bytes());
        offset += b.len();
    }
    for b in bodies {
        out.extend_from_slice(b);
    }
    out
}

impl Network {
    pub fn bodies(&self) -> Vec<Vec<u8>> {
        let nodes = self.nodes.iter().flat_map(|&(x, y)| [x.to_le_bytes(), y.to_le_bytes()].concat()).collect();
        let edges = self
            .edges
            .iter()
            .flat_map(|e| [&e.first.to_le_bytes()[..], &e.second.to_le_bytes()[..], &e.seconds.to_le_bytes()[..]].concat())
            .collect();
        // No edge is closed: body 3 is there, and empty.
        vec![nodes, edges, Vec::new()]
    }

    pub fn to_bytes(&self) -> Vec<u8> {
        file(Kind::Network, &self.bodies())
    }
}

pub fn read16(b: &[u8], at: usize) -> u16 {
    u16::from_le_bytes([b[at], b[at + 1]])
}

pub fn read32(b: &[u8], at: usize) -> u32 {
    u32::from_le_bytes([b[at], b[at + 1], b[at + 2], b[at + 3]])
}

/// Body k, from 0, where the contents show one inside the file.
pub fn body(f: &[u8], k: usize) -> Option<&[u8]> {
    if f.len() < HEAD_SIZE || k >= f[1] as usize || f.len() < entry_at(k + 1) {
        return None;
    }
    let (offset, size) = entry(f, k);
    f.get(offset..offset.checked_add(size)?)
}

/// Where entry k of the contents says that its body begins, and how many bytes that has. The contents are complete.
pub fn entry(f: &[u8], k: usize) -> (usize, usize) {
    (read32(f, entry_at(k) + 1) as usize, read32(f, entry_at(k) + 5) as usize)
}

/// The kinds of files.
#[derive(Clone, Copy, Debug, PartialEq, Eq)]
pub enum Kind {
    Network,
    Oracle,
    Sheet,
}

impl Kind {
    pub fn edition(self) -> u8 {
        match self {
            Kind::Network => NETWORK_EDITION,
            Kind::Oracle => ORACLE_EDITION,
            Kind::Sheet => SHEET_EDITION,
        }
    }

    pub fn bodies(self) -> usize {
        match self {
            Kind::Network => NETWORK_BODIES,
            Kind::Oracle => ORACLE_BODIES,
            Kind::Sheet => SHEET_BODIES,
        }
    }

    /// The kind of its first entry.
    fn first(self) -> u8 {
        if self == Kind::Sheet { SHEET_KIND } else { FIRST_KIND }
    }
}

/// Whether a file begins as one of this kind does, in its edition or one before. It may be damaged otherwise.
pub fn looks_like(f: &[u8], kind: Kind) -> bool {
    let (editions, bodies) = (1..=kind.edition(), kind.bodies());
    f.len() >= entry_at(bodies) && editions.contains(&f[0]) && f[1] as usize == bodies && (0..bodies).all(|k| f[entry_at(k)] == kind.first() + k as u8)
}

/// The number of nodes that a file shows, as far as it can be read; at most as many as a network may have.
pub fn node_count(f: &[u8]) -> usize {
    body(f, NODES).map_or(0, |b| b.len() / NODE_SIZE).min(MAX_NODES)
}

/// The working words that any call over this file needs.
pub fn words_needed(f: &[u8]) -> usize {
    WORDS * node_count(f)
}

/// Bytes enough for the oracle of this network, whatever its grid.
pub fn most_room(f: &[u8]) -> usize {
    room(node_count(f), body(f, EDGES).map_or(0, |edges| edges.len() / EDGE_SIZE), f.len())
}

/// The same where bodies 1 to 3 have so many bytes: there is a transit node for each edge at the most, and all of them may be in each list.
/// (`jukesogbi_room` of the header, which knows these bytes from the numbers of places and roads.)
pub fn room(nodes: usize, edges: usize, bodies: usize) -> usize {
    let transit = nodes.min(edges);
    entry_at(ORACLE_BODIES) + bodies + GRID_SIZE + NUMBER_SIZE * transit + most_access(nodes, transit) + VALUE_SIZE * transit * transit
}

/// The network in a file that the core has accepted.
pub fn network(f: &[u8]) -> Network {
    let of = |k| body(f, k).unwrap_or(&[]);
    Network {
        nodes: of(NODES).chunks_exact(NODE_SIZE).map(|c| (read32(c, 0) as i32, read32(c, COORDINATE_SIZE) as i32)).collect(),
        edges: of(EDGES).chunks_exact(EDGE_SIZE).map(|c| Edge { first: read16(c, 0), second: read16(c, 2), seconds: read32(c, 4) }).collect(),
    }
}

/// A list of 16-bit numbers.
pub fn numbers(b: &[u8]) -> Vec<u16> {
    b.chunks_exact(NUMBER_SIZE).map(|c| read16(c, 0)).collect()
}

/// A value of the lists and the table as it stands there: seconds and a number of roads.
pub type Value = (u32, u16);

pub fn value(b: &[u8], at: usize) -> Value {
    (read32(b, at), read16(b, at + SECONDS_SIZE))
}

/// The entries of an access list, its count included: an index and a value each.
pub fn list_entries(list: &[u8]) -> impl Iterator<Item = (u16, Value)> + '_ {
    list[COUNT_SIZE..].chunks_exact(LIST_ENTRY_SIZE).map(|e| (read16(e, 0), value(e, NUMBER_SIZE)))
}

/// The grid number of an oracle.
pub fn grid_number(o: &[u8]) -> u32 {
    body(o, GRID).filter(|b| b.len() == GRID_SIZE).map_or(0, |b| read16(b, 0) as u32)
}

/// The transit nodes of an oracle.
pub fn transit_nodes(o: &[u8]) -> Vec<u16> {
    numbers(body(o, TRANSIT).unwrap_or(&[]))
}
