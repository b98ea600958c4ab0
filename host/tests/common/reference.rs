//! Document 01 in plain Rust, and of document 02 the block, the day sheets, the wages sheet and the converter, written from their text alone and as slow as
//! their definitions read: every notion is worked out by going over all places, roads and cells. It shares nothing with the core nor with the host's own
//! modules; bytes, too, are read and written here.
//!
//! Until T-06 a network could have closed roads, and was answered as 01 says. `Network::old` and `Questions::old` still do so, to compare with; of T-07 they
//! have all the rest, edition 2 of oracles too.

#[path = "reference_convert.rs"]
pub mod convert;
#[path = "reference_sheet.rs"]
pub mod sheets;
#[path = "reference_wages.rs"]
pub mod wages;

use std::cell::{OnceCell, RefCell};
use std::collections::{BTreeMap, BTreeSet};
use std::ops::Add;
use std::rc::Rc;

/// In bodies 6 and 7: no walk.
pub const NO_WALK: u32 = 4_294_967_295;
pub const NO_ROADS: u32 = 65_535;
/// Every other value there is at most 4,095 roads of 100,000 seconds.
pub const MOST_SECONDS: u32 = 409_500_000;
pub const MOST_ROADS: u32 = 4_095;
/// The inner and the outer square reach so many cells beyond their middle.
const INNER: i64 = 2;
const OUTER: i64 = 4;
/// Working words for each place.
pub const WORDS: usize = 8;
/// A block has so many rows and columns.
pub const SIDE: usize = 12;
/// The editions, and the entries of a network and of an oracle.
const NETWORK_EDITION: u8 = 1;
const ORACLE_EDITION: u8 = 2;
const NETWORK: usize = 3;
const ORACLE: usize = 7;

/// Sizes in bytes: a place, a road, a 16-bit number, the grid body; in body 6 a start, a list's count and an entry; a value of bodies 6 and 7, which is
/// seconds of 32 bits and a number of roads of 16.
const PLACE: usize = 8;
const ROAD: usize = 8;
const NUMBER: usize = 2;
const GRID: usize = 2;
const START: usize = 4;
const COUNT: usize = 2;
const SECONDS: usize = 4;
const VALUE: usize = SECONDS + NUMBER;
const ENTRY: usize = NUMBER + VALUE;

/// The edition and the entry count, then 9 bytes an entry: where entry k stands, and behind the last where body 1 begins.
const fn entry_at(k: usize) -> usize {
    2 + 9 * k
}

// ---- Bytes ----

pub fn number_16(b: &[u8], at: usize) -> u32 {
    b[at] as u32 + 256 * b[at + 1] as u32
}

pub fn number_32(b: &[u8], at: usize) -> u32 {
    number_16(b, at) + 65_536 * number_16(b, at + 2)
}

fn signed_32(b: &[u8], at: usize) -> i64 {
    let plain = number_32(b, at) as i64;
    if plain < 2_147_483_648 { plain } else { plain - 4_294_967_296 }
}

pub fn bytes_16(number: usize) -> [u8; 2] {
    assert!(number < 65_536);
    [(number % 256) as u8, (number / 256) as u8]
}

pub fn bytes_32(number: usize) -> [u8; 4] {
    let (low, high) = (bytes_16(number % 65_536), bytes_16(number / 65_536));
    [low[0], low[1], high[0], high[1]]
}

fn numbers_16(b: &[u8]) -> Vec<u32> {
    b.chunks_exact(NUMBER).map(|c| number_16(c, 0)).collect()
}

fn rising(numbers: &[u32]) -> bool {
    numbers.windows(2).all(|w| w[0] < w[1])
}

/// The file of these bodies: edition, number of entries, entries, and the bodies one after another.
pub fn file(bodies: &[Vec<u8>]) -> Vec<u8> {
    let edition = if bodies.len() == NETWORK { NETWORK_EDITION } else { ORACLE_EDITION };
    let mut bytes = vec![edition, bodies.len() as u8];
    let mut offset = entry_at(bodies.len());
    for (k, body) in bodies.iter().enumerate() {
        bytes.push(k as u8 + 1);
        bytes.extend(bytes_32(offset));
        bytes.extend(bytes_32(body.len()));
        offset += body.len();
    }
    bodies.iter().for_each(|body| bytes.extend(body));
    bytes
}

/// Where body `kind` (from 1) of a file begins and ends. The file breaks neither rule 1 nor rule 2.
pub fn body_ends(f: &[u8], kind: usize) -> (usize, usize) {
    let entry = entry_at(kind - 1);
    let (offset, length) = (number_32(f, entry + 1) as usize, number_32(f, entry + 5) as usize);
    (offset, offset + length)
}

pub fn body(f: &[u8], kind: usize) -> &[u8] {
    let (from, to) = body_ends(f, kind);
    &f[from..to]
}

// ---- Rules 1 to 11, and 21 behind 7. Each predicate may count on the rules before it. ----

fn breaks_1(f: &[u8], entries: usize) -> bool {
    let edition = if entries == NETWORK { NETWORK_EDITION } else { ORACLE_EDITION };
    f.len() < 2 || f[0] != edition || f[1] as usize != entries || f.len() < entry_at(entries)
}

fn breaks_2(f: &[u8], entries: usize) -> bool {
    // 64 bits, so that no sum of lengths comes round to the file's length.
    let mut next = entry_at(entries) as u64;
    for k in 0..entries {
        let entry = &f[entry_at(k)..entry_at(k + 1)];
        if entry[0] as usize != k + 1 || number_32(entry, 1) as u64 != next {
            return true;
        }
        next += number_32(entry, 5) as u64;
    }
    next != f.len() as u64
}

fn breaks_3(places: &[u8]) -> bool {
    !places.len().is_multiple_of(PLACE) || !(1..=4096).contains(&(places.len() / PLACE))
}

fn breaks_4(places: &[u8]) -> bool {
    places.chunks(PLACE / 2).any(|c| !(-1_000_000..=1_000_000).contains(&signed_32(c, 0)))
}

fn breaks_5(roads: &[u8]) -> bool {
    !roads.len().is_multiple_of(ROAD) || roads.len() / ROAD > 16_384
}

fn breaks_6(roads: &[u8], n: usize) -> bool {
    roads.chunks(ROAD).any(|r| {
        let (first, second, seconds) = (number_16(r, 0) as usize, number_16(r, 2) as usize, number_32(r, 4));
        first >= n || second >= n || first == second || seconds > 100_000
    })
}

/// Rules 7 and 9: numbers of 16 bits that rise, each below `limit`.
fn breaks_7_or_9(numbers: &[u8], limit: usize) -> bool {
    !numbers.len().is_multiple_of(NUMBER) || !rising(&numbers_16(numbers)) || numbers_16(numbers).iter().any(|&k| k as usize >= limit)
}

/// T-06: body 3 holds a well-formed entry, which all of its entries are.
fn breaks_21(closed: &[u8]) -> bool {
    !closed.is_empty()
}

fn breaks_8(g: u32) -> bool {
    !(1..=64).contains(&g)
}

fn breaks_8_as_body(grid: &[u8]) -> bool {
    grid.len() != GRID || breaks_8(number_16(grid, 0))
}

/// What an entry of a list or a square of the table holds: seconds and roads.
pub type Value = (u32, u32);

/// 'No walk' has both of its numbers; else each is at most its most.
fn out_of_range((seconds, roads): Value) -> bool {
    (seconds, roads) != (NO_WALK, NO_ROADS) && (seconds > MOST_SECONDS || roads > MOST_ROADS)
}

pub fn value_at(b: &[u8], at: usize) -> Value {
    (number_32(b, at), number_16(b, at + SECONDS))
}

pub fn value_bytes((seconds, roads): Value) -> Vec<u8> {
    [&bytes_32(seconds as usize)[..], &bytes_16(roads as usize)].concat()
}

/// The size of a list that stands at a position, its count included.
fn list_size(b: &[u8], at: usize) -> usize {
    COUNT + ENTRY * number_16(b, at) as usize
}

/// The entries of a list, its count included: index and value.
pub fn list_entries(list: &[u8]) -> Vec<(u32, Value)> {
    list[COUNT..].chunks(ENTRY).map(|e| (number_16(e, 0), value_at(e, NUMBER))).collect()
}

fn breaks_10(access: &[u8], n: usize, t: usize) -> bool {
    if access.len() < START * n {
        return true;
    }
    // The lists stand without gaps, so each start is where the list before has ended.
    let mut next = START * n;
    for u in 0..n {
        if number_32(access, START * u) as usize != next || access.len() < next + COUNT {
            return true;
        }
        let end = next + list_size(access, next);
        if access.len() < end {
            return true;
        }
        let (indices, values): (Vec<u32>, Vec<Value>) = list_entries(&access[next..end]).into_iter().unzip();
        if !rising(&indices) || indices.iter().any(|&i| i as usize >= t) || values.into_iter().any(out_of_range) {
            return true;
        }
        next = end;
    }
    next != access.len()
}

fn breaks_11(table: &[u8], t: usize) -> bool {
    table.len() != VALUE * t * t || table.chunks(VALUE).any(|v| out_of_range(value_at(v, 0)))
}

/// The first of rules 1 to 7 that a file with so many entries breaks.
fn network_rule(f: &[u8], entries: usize) -> Option<u32> {
    if breaks_1(f, entries) {
        return Some(1);
    }
    if breaks_2(f, entries) {
        return Some(2);
    }
    let (places, roads, closed) = (body(f, 1), body(f, 2), body(f, 3));
    if breaks_3(places) {
        return Some(3);
    }
    if breaks_4(places) {
        return Some(4);
    }
    if breaks_5(roads) {
        return Some(5);
    }
    if breaks_6(roads, places.len() / PLACE) {
        return Some(6);
    }
    if breaks_7_or_9(closed, roads.len() / ROAD) {
        return Some(7);
    }
    None
}

/// Whether a file may have closed roads.
#[derive(Clone, Copy, PartialEq, Eq)]
enum Closed {
    /// As 01 has it, and the converter still.
    Allowed,
    /// T-06: "21 .. directly after 7, in every call but this converter".
    Refused,
}

/// The first of rules 1 to 7 and 21 that a file with so many entries breaks.
fn roads_rule(f: &[u8], entries: usize, closed: Closed) -> Option<u32> {
    network_rule(f, entries).or_else(|| (closed == Closed::Refused && breaks_21(body(f, 3))).then_some(21))
}

/// The first of rules 1 to 7, 21 and 8 to 11 that an oracle breaks.
fn oracle_rule(f: &[u8], closed: Closed) -> Option<u32> {
    if let Some(rule) = roads_rule(f, ORACLE, closed) {
        return Some(rule);
    }
    let n = body(f, 1).len() / PLACE;
    let t = body(f, 5).len() / NUMBER;
    if breaks_8_as_body(body(f, 4)) {
        return Some(8);
    }
    if breaks_7_or_9(body(f, 5), n) {
        return Some(9);
    }
    if breaks_10(body(f, 6), n, t) {
        return Some(10);
    }
    if breaks_11(body(f, 7), t) {
        return Some(11);
    }
    None
}

// ---- Walks ----

/// What walks are compared by: "by seconds, then by fewer roads". The derived order goes by the one and then by the other.
#[derive(Clone, Copy, Debug, PartialEq, Eq, PartialOrd, Ord)]
pub struct Pair {
    pub seconds: u64,
    pub roads: u64,
}

impl Pair {
    /// That of a walk with no road.
    pub const ZERO: Pair = Pair { seconds: 0, roads: 0 };

    /// That of a walk of one road.
    pub fn road(seconds: u64) -> Pair {
        Pair { seconds, roads: 1 }
    }
}

impl Add for Pair {
    type Output = Pair;

    fn add(self, other: Pair) -> Pair {
        Pair { seconds: self.seconds + other.seconds, roads: self.roads + other.roads }
    }
}

struct Road {
    ends: (usize, usize),
    seconds: u64,
    /// Closed neither in an old network's body 3 nor by a sheet.
    open: bool,
}

/// The places and roads of a file that breaks none of rules 1 to 7.
pub struct Map {
    places: Vec<(i64, i64)>,
    roads: Vec<Road>,
    /// d from each place that was asked for.
    rows: Vec<OnceCell<Vec<Option<Pair>>>>,
}

impl Map {
    fn of(f: &[u8]) -> Map {
        let closed = numbers_16(body(f, 3));
        let places: Vec<(i64, i64)> = body(f, 1).chunks(PLACE).map(|p| (signed_32(p, 0), signed_32(p, 4))).collect();
        let roads = body(f, 2).chunks(ROAD).enumerate().map(|(i, r)| Road {
            ends: (number_16(r, 0) as usize, number_16(r, 2) as usize),
            seconds: number_32(r, 4) as u64,
            open: closed.binary_search(&(i as u32)).is_err(),
        });
        let rows = places.iter().map(|_| OnceCell::new()).collect();
        Map { roads: roads.collect(), places, rows }
    }

    pub fn size(&self) -> usize {
        self.places.len()
    }

    /// The open roads, each in both directions, as (from, to, seconds).
    pub fn steps(&self) -> impl Iterator<Item = (usize, usize, u64)> + '_ {
        let open = self.roads.iter().filter(|r| r.open);
        open.flat_map(|r| [(r.ends.0, r.ends.1, r.seconds), (r.ends.1, r.ends.0, r.seconds)])
    }

    /// d(u, t), None where there is no walk.
    pub fn d(&self, u: usize, t: usize) -> Option<Pair> {
        self.rows[u].get_or_init(|| self.row(u))[t]
    }

    /// The least pairs from u (Bellman and Ford): go over all open roads until none leads to a lesser one. Each road counts, so this has an end.
    fn row(&self, u: usize) -> Vec<Option<Pair>> {
        let mut least = vec![None; self.size()];
        least[u] = Some(Pair::ZERO);
        loop {
            let mut changed = false;
            for (from, to, seconds) in self.steps() {
                if let Some(before) = least[from] {
                    let pair = before + Pair::road(seconds);
                    if least[to].is_none_or(|known| pair < known) {
                        least[to] = Some(pair);
                        changed = true;
                    }
                }
            }
            if !changed {
                return least;
            }
        }
    }

    /// The places of the way from u to t, none where there is no walk.
    pub fn way(&self, u: usize, t: usize) -> Vec<usize> {
        let Some(left) = self.d(u, t) else { return Vec::new() };
        if u == t {
            return vec![u];
        }
        let leads_on = |&(from, to, seconds): &(usize, usize, u64)| from == u && self.d(to, t).is_some_and(|rest| Pair::road(seconds) + rest == left);
        let next = self.steps().filter(leads_on).map(|(_, to, _)| to).min().expect("a least walk begins with a road");
        let mut places = vec![u];
        places.extend(self.way(next, t));
        places
    }
}

// ---- Cells and the places chosen ----

/// Column and row.
type Cell = (i64, i64);

struct Cells(Vec<Cell>);

impl Cells {
    fn of(map: &Map, g: u32) -> Cells {
        let xs = || map.places.iter().map(|p| p.0);
        let ys = || map.places.iter().map(|p| p.1);
        let (left, right) = (xs().min().unwrap(), xs().max().unwrap());
        let (bottom, top) = (ys().min().unwrap(), ys().max().unwrap());
        let spread = (right - left).max(top - bottom);
        // Neither difference is negative, so this division rounds down.
        let cell = |v: i64, least: i64| (v - least) * g as i64 / (spread + 1);
        Cells(map.places.iter().map(|p| (cell(p.0, left), cell(p.1, bottom))).collect())
    }

    /// Whether a place lies in the square about a cell that reaches `radius` cells beyond it.
    fn inside(&self, place: usize, about: Cell, radius: i64) -> bool {
        let (column, row) = self.0[place];
        (column - about.0).abs() <= radius && (row - about.1).abs() <= radius
    }

    fn far(&self, s: usize, t: usize) -> bool {
        let (a, b) = (self.0[s], self.0[t]);
        (a.0 - b.0).abs() >= 5 || (a.1 - b.1).abs() >= 5
    }

    fn crossing(&self, map: &Map, about: Cell, radius: i64) -> BTreeSet<usize> {
        let crosses = |r: &&Road| r.open && self.inside(r.ends.0, about, radius) != self.inside(r.ends.1, about, radius);
        map.roads.iter().filter(crosses).map(|r| r.ends.0.min(r.ends.1)).collect()
    }

    fn access(&self, map: &Map, cell: Cell) -> BTreeSet<usize> {
        let own = self.crossing(map, cell, 0);
        if own.is_empty() {
            return BTreeSet::new();
        }
        let (inner, outer) = (self.crossing(map, cell, INNER), self.crossing(map, cell, OUTER));
        let between = |a: usize, p: usize, q: usize| match (map.d(p, a), map.d(a, q), map.d(p, q)) {
            (Some(to), Some(on), Some(whole)) => to + on == whole,
            _ => false,
        };
        inner.into_iter().filter(|&a| own.iter().any(|&p| outer.iter().any(|&q| between(a, p, q)))).collect()
    }
}

// ---- The built oracle ----

#[derive(Clone, Debug, PartialEq, Eq)]
pub struct Oracle {
    pub bytes: Vec<u8>,
    pub transit: Vec<usize>,
}

/// As bodies 6 and 7 hold it.
pub fn value(d: Option<Pair>) -> Value {
    d.map_or((NO_WALK, NO_ROADS), |pair| (pair.seconds as u32, pair.roads as u32))
}

/// The oracle of bodies 1 to 3 under g.
fn built(bodies: [&[u8]; 3], map: &Map, g: u32) -> Oracle {
    let n = map.size();
    let cells = Cells::of(map, g);
    let all_cells = (0..g as i64).flat_map(|column| (0..g as i64).map(move |row| (column, row)));
    let access: BTreeMap<Cell, BTreeSet<usize>> = all_cells.map(|c| (c, cells.access(map, c))).collect();
    let transit: Vec<usize> = access.values().flatten().copied().collect::<BTreeSet<usize>>().into_iter().collect();
    let index = |a: usize| transit.iter().position(|&b| b == a).expect("access places are transit places");

    let (mut starts, mut lists) = (Vec::new(), Vec::new());
    for u in 0..n {
        let chosen = &access[&cells.0[u]];
        starts.extend(bytes_32(START * n + lists.len()));
        lists.extend(bytes_16(chosen.len()));
        for &a in chosen {
            lists.extend(bytes_16(index(a)));
            lists.extend(value_bytes(value(map.d(u, a))));
        }
    }
    let table = transit.iter().flat_map(|&a| transit.iter().flat_map(move |&b| value_bytes(value(map.d(a, b))))).collect();
    let bytes = file(&[
        bodies[0].to_vec(),
        bodies[1].to_vec(),
        bodies[2].to_vec(),
        bytes_16(g as usize).to_vec(),
        transit.iter().flat_map(|&a| bytes_16(a)).collect(),
        [starts, lists].concat(),
        table,
    ]);
    Oracle { bytes, transit }
}

// ---- The calls ----

/// What a call hands back, and what it does to lent memory.
#[derive(Clone, Debug, PartialEq, Eq)]
pub struct Outcome<V> {
    /// The values, or the number of the first rule broken.
    pub result: Result<V, u32>,
    /// So many of the first working words become zero; the others stay.
    pub zeroed: usize,
    /// What stands at the front of output afterwards; the rest of it stays.
    pub written: Vec<u8>,
}

impl<V> Outcome<V> {
    fn refused(rule: u32) -> Outcome<V> {
        Outcome { result: Err(rule), zeroed: 0, written: Vec::new() }
    }

    /// What the working words hold afterwards.
    pub fn expected_words(&self, before: &[u32]) -> Vec<u32> {
        let mut words = before.to_vec();
        words[..self.zeroed].fill(0);
        words
    }

    /// What output holds afterwards.
    pub fn expected_out(&self, before: &[u8]) -> Vec<u8> {
        let mut out = before.to_vec();
        out[..self.written.len()].copy_from_slice(&self.written);
        out
    }
}

#[derive(Clone, Copy, Debug, PartialEq, Eq)]
pub struct Built {
    pub length: usize,
    pub transit: usize,
}

/// A time, which is seconds and roads, or none; the kind; and the pairs tried.
#[derive(Clone, Copy, Debug, PartialEq, Eq)]
pub struct Answer {
    pub far: bool,
    pub time: Option<Pair>,
    pub pairs: usize,
}

impl Answer {
    pub fn seconds(&self) -> Option<u64> {
        self.time.map(|pair| pair.seconds)
    }
}

/// Twelve rows of twelve.
pub type Squares = [[u32; SIDE]; SIDE];

/// The block of times, and the like one for roads.
#[derive(Clone, Copy, Debug, PartialEq, Eq)]
pub struct Block {
    pub times: Squares,
    pub roads: Squares,
}

impl Block {
    /// Of these pairs of numbers, the rest zero.
    pub fn of(rows: impl IntoIterator<Item = impl IntoIterator<Item = Value>>) -> Block {
        let mut block = Block { times: [[0; SIDE]; SIDE], roads: [[0; SIDE]; SIDE] };
        for (i, row) in rows.into_iter().enumerate() {
            for (j, value) in row.into_iter().enumerate() {
                (block.times[i][j], block.roads[i][j]) = value;
            }
        }
        block
    }
}

/// What a way of these places does to so many working words and so much output: 15 where it has no room.
pub fn way_outcome(places: Vec<usize>, zeroed: usize, room: usize) -> Outcome<usize> {
    if room < NUMBER * places.len() {
        return Outcome { result: Err(15), zeroed, written: Vec::new() };
    }
    Outcome { result: Ok(places.len()), zeroed, written: places.into_iter().flat_map(bytes_16).collect() }
}

/// A part of the oracle.
#[derive(Clone, Copy, Debug, PartialEq, Eq)]
pub struct Part {
    pub start: usize,
    pub size: usize,
}

/// A file lent as a network.
pub struct Network {
    pub bytes: Vec<u8>,
    /// The first of rules 1 to 7 and 21 that it breaks, or its map.
    read: Result<Map, u32>,
    /// Oracles worked out so far, by g: what they are does not hang on what is lent.
    oracles: RefCell<BTreeMap<u32, Rc<Oracle>>>,
}

impl Network {
    pub fn of(bytes: Vec<u8>) -> Network {
        Network::read(bytes, Closed::Refused)
    }

    /// As it was until T-06.
    pub fn old(bytes: Vec<u8>) -> Network {
        Network::read(bytes, Closed::Allowed)
    }

    fn read(bytes: Vec<u8>, closed: Closed) -> Network {
        let read = match roads_rule(&bytes, NETWORK, closed) {
            Some(rule) => Err(rule),
            None => Ok(Map::of(&bytes)),
        };
        Network { bytes, read, oracles: RefCell::default() }
    }

    pub fn map(&self) -> Option<&Map> {
        self.read.as_ref().ok()
    }

    /// The number of places, 0 where the file is refused.
    pub fn size(&self) -> usize {
        self.map().map_or(0, Map::size)
    }

    /// The built oracle of an accepted network.
    pub fn oracle(&self, g: u32) -> Rc<Oracle> {
        let map = self.map().expect("the network is accepted");
        let bodies = [body(&self.bytes, 1), body(&self.bytes, 2), body(&self.bytes, 3)];
        self.oracles.borrow_mut().entry(g).or_insert_with(|| Rc::new(built(bodies, map, g))).clone()
    }

    /// Building: 1 to 7, 21, 8, 14, 15.
    pub fn build(&self, g: u32, words: usize, room: usize) -> Outcome<Built> {
        if let Err(rule) = self.read {
            return Outcome::refused(rule);
        }
        if breaks_8(g) {
            return Outcome::refused(8);
        }
        let needed = WORDS * self.size();
        if words < needed {
            return Outcome::refused(14);
        }
        let oracle = self.oracle(g);
        if room < oracle.bytes.len() {
            return Outcome { result: Err(15), zeroed: needed, written: Vec::new() };
        }
        let values = Built { length: oracle.bytes.len(), transit: oracle.transit.len() };
        Outcome { result: Ok(values), zeroed: needed, written: oracle.bytes.clone() }
    }
}

/// A well-shaped oracle as read.
struct Shaped {
    map: Map,
    cells: Cells,
    g: u32,
}

/// A file lent as an oracle, built or not.
pub struct Questions {
    pub bytes: Vec<u8>,
    /// The first of rules 1 to 7, 21 and 8 to 11 that it breaks, or what it holds.
    read: Result<Shaped, u32>,
    /// The oracle that building gives from its bodies 1 to 4.
    built: OnceCell<Oracle>,
}

impl Questions {
    pub fn of(bytes: Vec<u8>) -> Questions {
        Questions::read(bytes, Closed::Refused)
    }

    /// As it was until T-06.
    pub fn old(bytes: Vec<u8>) -> Questions {
        Questions::read(bytes, Closed::Allowed)
    }

    fn read(bytes: Vec<u8>, closed: Closed) -> Questions {
        let read = match oracle_rule(&bytes, closed) {
            Some(rule) => Err(rule),
            None => {
                let (map, g) = (Map::of(&bytes), number_16(body(&bytes, 4), 0));
                Ok(Shaped { cells: Cells::of(&map, g), map, g })
            }
        };
        Questions { bytes, read, built: OnceCell::new() }
    }

    pub fn map(&self) -> Option<&Map> {
        self.read.as_ref().ok().map(|o| &o.map)
    }

    /// The number of places, 0 where the file is refused.
    pub fn size(&self) -> usize {
        self.map().map_or(0, Map::size)
    }

    /// The access list of u as a part of the file.
    fn part(&self, u: usize) -> Part {
        let (from, _) = body_ends(&self.bytes, 6);
        let start = from + number_32(&self.bytes, from + START * u) as usize;
        Part { start, size: list_size(&self.bytes, start) }
    }

    /// The entries of the list of u: index and value.
    fn entries(&self, u: usize) -> Vec<(usize, Value)> {
        let part = self.part(u);
        let entries = list_entries(&self.bytes[part.start..][..part.size]);
        entries.into_iter().map(|(index, value)| (index as usize, value)).collect()
    }

    fn far_answer(&self, s: usize, t: usize) -> Answer {
        let (from, to, table) = (self.entries(s), self.entries(t), body(&self.bytes, 7));
        let transit = body(&self.bytes, 5).len() / NUMBER;
        let mut least: Option<Pair> = None;
        for &(i, first) in &from {
            for &(j, last) in &to {
                let parts = [first, value_at(table, VALUE * (transit * i + j)), last];
                if parts.iter().all(|part| part.0 != NO_WALK) {
                    let pairs = parts.map(|(seconds, roads)| Pair { seconds: seconds as u64, roads: roads as u64 });
                    let sum = pairs[0] + pairs[1] + pairs[2];
                    least = Some(least.map_or(sum, |known| known.min(sum)));
                }
            }
        }
        Answer { far: true, time: least, pairs: from.len() * to.len() }
    }

    /// The answer for two places.
    fn answer(&self, shaped: &Shaped, s: usize, t: usize) -> Answer {
        if shaped.cells.far(s, t) { self.far_answer(s, t) } else { Answer { far: false, time: shaped.map.d(s, t), pairs: 0 } }
    }

    /// The audit: 1 to 7, 21, 8 to 11, 14, 16.
    pub fn audit(&self, words: usize) -> Outcome<()> {
        let shaped = match &self.read {
            Ok(shaped) => shaped,
            Err(rule) => return Outcome::refused(*rule),
        };
        let needed = WORDS * shaped.map.size();
        if words < needed {
            return Outcome::refused(14);
        }
        let bodies = [body(&self.bytes, 1), body(&self.bytes, 2), body(&self.bytes, 3)];
        let oracle = self.built.get_or_init(|| built(bodies, &shaped.map, shaped.g));
        let result = if oracle.bytes == self.bytes { Ok(()) } else { Err(16) };
        Outcome { result, zeroed: needed, written: Vec::new() }
    }

    /// Opening: 1 to 7, 21, 8 to 11, 14.
    pub fn open(&self, words: usize) -> Result<(), u32> {
        match &self.read {
            Ok(shaped) if words < WORDS * shaped.map.size() => Err(14),
            Ok(_) => Ok(()),
            Err(rule) => Err(*rule),
        }
    }

    /// Rules 1 to 7, 21 and 8 to 11, and 12 for the places named in the call.
    fn asked(&self, places: &[u32]) -> Result<&Shaped, u32> {
        let shaped = self.read.as_ref().map_err(|rule| *rule)?;
        if places.iter().any(|&u| u as usize >= shaped.map.size()) {
            return Err(12);
        }
        Ok(shaped)
    }

    /// The time: what `asked` looks at, 14.
    pub fn time(&self, s: u32, t: u32, words: usize) -> Outcome<Answer> {
        let shaped = match self.asked(&[s, t]) {
            Ok(shaped) => shaped,
            Err(rule) => return Outcome::refused(rule),
        };
        let needed = WORDS * shaped.map.size();
        if words < needed {
            return Outcome::refused(14);
        }
        Outcome { result: Ok(self.answer(shaped, s as usize, t as usize)), zeroed: needed, written: Vec::new() }
    }

    /// The far question: what `asked` looks at, 13.
    pub fn far(&self, s: u32, t: u32) -> Outcome<Answer> {
        let shaped = match self.asked(&[s, t]) {
            Ok(shaped) => shaped,
            Err(rule) => return Outcome::refused(rule),
        };
        let (s, t) = (s as usize, t as usize);
        if !shaped.cells.far(s, t) {
            return Outcome::refused(13);
        }
        Outcome { result: Ok(self.far_answer(s, t)), zeroed: 0, written: Vec::new() }
    }

    /// The list: what `asked` looks at.
    pub fn list(&self, u: u32) -> Outcome<Part> {
        match self.asked(&[u]) {
            Ok(_) => Outcome { result: Ok(self.part(u as usize)), zeroed: 0, written: Vec::new() },
            Err(rule) => Outcome::refused(rule),
        }
    }

    /// The way: what `asked` looks at, 14, 15. Its value is the number of places.
    pub fn way(&self, s: u32, t: u32, words: usize, room: usize) -> Outcome<usize> {
        let shaped = match self.asked(&[s, t]) {
            Ok(shaped) => shaped,
            Err(rule) => return Outcome::refused(rule),
        };
        let needed = WORDS * shaped.map.size();
        if words < needed {
            return Outcome::refused(14);
        }
        way_outcome(shaped.map.way(s as usize, t as usize), needed, room)
    }

    /// The block: what `asked` looks at, 17, 14.
    pub fn block(&self, starts: &[u32], ends: &[u32], words: usize) -> Outcome<Block> {
        let shaped = match self.asked(&[starts, ends].concat()) {
            Ok(shaped) => shaped,
            Err(rule) => return Outcome::refused(rule),
        };
        if [starts, ends].iter().any(|side| side.is_empty() || side.len() > SIDE) {
            return Outcome::refused(17);
        }
        let needed = WORDS * shaped.map.size();
        if words < needed {
            return Outcome::refused(14);
        }
        let square = |s: u32, t: u32| value(self.answer(shaped, s as usize, t as usize).time);
        let block = Block::of(starts.iter().map(|&s| ends.iter().map(move |&t| square(s, t))));
        Outcome { result: Ok(block), zeroed: needed, written: Vec::new() }
    }
}
