//! The form of network, oracle and sheet files, and of legs and their wages, each number once. For showing, making and measuring only: the core reads for
//! itself, and the tests' reference has numbers of its own.

pub const NETWORK_EDITION: u8 = 1;
pub const ORACLE_EDITION: u8 = 2;
pub const SHEET_EDITION: u8 = 1;

/// The edition and the number of entries, then the entries: kind, offset, length.
pub const HEAD_SIZE: usize = 2;
pub const ENTRY_SIZE: usize = 9;
pub const LENGTH_SIZE: usize = 4;

/// The bodies of a network, and those that an oracle has beside them. That of closed edges is empty but in old files, which the converter alone takes.
pub const NODES: usize = 0;
pub const EDGES: usize = 1;
pub const CLOSED: usize = 2;
pub const NETWORK_BODIES: usize = 3;
pub const GRID: usize = 3;
pub const TRANSIT: usize = 4;
pub const ACCESS: usize = 5;
pub const TABLE: usize = 6;
pub const ORACLE_BODIES: usize = 7;

/// The one body of a sheet.
pub const LINES: usize = 0;
pub const SHEET_BODIES: usize = 1;

/// The kinds of entries rise by one, from these on.
pub const FIRST_KIND: u8 = 1;
pub const SHEET_KIND: u8 = 8;

pub const COORDINATE_SIZE: usize = 4;
pub const NODE_SIZE: usize = 2 * COORDINATE_SIZE;
pub const EDGE_SIZE: usize = 8;
pub const NUMBER_SIZE: usize = 2;
pub const SECONDS_SIZE: usize = 4;
pub const GRID_SIZE: usize = 2;

/// In the access body: where a list starts, its count, and an entry, which is an index and a value: seconds, and a number of roads.
pub const START_SIZE: usize = 4;
pub const COUNT_SIZE: usize = 2;
pub const VALUE_SIZE: usize = SECONDS_SIZE + NUMBER_SIZE;
pub const LIST_ENTRY_SIZE: usize = NUMBER_SIZE + VALUE_SIZE;

/// A line of a sheet: its first byte, a number, and seconds.
pub const LINE_SIZE: usize = 1 + NUMBER_SIZE + SECONDS_SIZE;
pub const CLOSED_LINE: u8 = 1;
pub const DELAYED_LINE: u8 = 2;

/// A leg is two numbers. Behind the seconds of all legs stand how many have no walk, and the total.
pub const LEG_SIZE: usize = 2 * NUMBER_SIZE;
pub const NONE_SIZE: usize = 4;
pub const TOTAL_SIZE: usize = 8;
pub const MAX_LEGS: usize = 1000;

pub const MAX_NODES: usize = 4096;
pub const MAX_EDGES: usize = 16_384;
pub const MAX_METRES: i32 = 1_000_000;
pub const MAX_SECONDS: u32 = 100_000;
pub const MAX_GRID: u32 = 64;
/// A least walk comes by no node twice.
pub const MAX_VALUE_ROADS: u32 = MAX_NODES as u32 - 1;
pub const MAX_VALUE_SECONDS: u32 = MAX_VALUE_ROADS * MAX_SECONDS;

/// Working words for each node.
pub const WORDS: usize = 8;

/// The most bytes of an access body for n nodes, t of them transit nodes: each list has all of these.
pub const fn most_access(n: usize, t: usize) -> usize {
    n * (START_SIZE + COUNT_SIZE + LIST_ENTRY_SIZE * t)
}

/// The most bytes that each body can have by its form. Closed edges and transit nodes rise, so each is named once. (Rule 21 wants no closed edge at all, but
/// a list of them that breaks 7 is refused by that, so it is read as far as the most.)
pub const MOST: [usize; ORACLE_BODIES] = [
    NODE_SIZE * MAX_NODES,
    EDGE_SIZE * MAX_EDGES,
    NUMBER_SIZE * MAX_EDGES,
    GRID_SIZE,
    NUMBER_SIZE * MAX_NODES,
    most_access(MAX_NODES, MAX_NODES),
    VALUE_SIZE * MAX_NODES * MAX_NODES,
];

/// The most bytes of a file with so many bodies.
pub fn most_size(bodies: usize) -> usize {
    entry_at(bodies) + MOST[..bodies].iter().sum::<usize>()
}

/// Where entry k stands, and so, with k the number of entries, where the first body begins.
pub const fn entry_at(k: usize) -> usize {
    HEAD_SIZE + ENTRY_SIZE * k
}
