//! The calls of the proved core, as safe functions. Nothing is decided here: what a call refuses, answers and leaves in lent memory is the core's
//! promise (see `include/jukesogbi.h` and docs/READING.md).

use std::fmt;

/// The number of the first rule that a call found broken.
#[derive(Clone, Copy, Debug, PartialEq, Eq)]
pub struct Refused(pub u32);

/// What each rule says: its line of the header, which alone has the texts.
pub fn rule_text(rule: u32) -> &'static str {
    let (_, table) = include_str!("../../include/jukesogbi.h").split_once("Rules, in checking order:\n").expect("the header lists the rules");
    let texts = table.lines().map_while(|line| line.trim_start_matches([' ', '*']).split_once("  "));
    texts.into_iter().find(|(number, _)| number.parse() == Ok(rule)).map_or("no such rule", |(_, text)| text)
}

/// The rule that a file of another edition breaks, or of another kind.
pub const CONTENTS: u32 = 1;

impl fmt::Display for Refused {
    fn fmt(&self, f: &mut fmt::Formatter<'_>) -> fmt::Result {
        write!(f, "rule {}: {}", self.0, rule_text(self.0))
    }
}

/// Document 01's "far" and "local".
#[derive(Clone, Copy, Debug, PartialEq, Eq)]
pub enum Kind {
    Far,
    Local,
}

impl fmt::Display for Kind {
    fn fmt(&self, f: &mut fmt::Formatter<'_>) -> fmt::Result {
        f.write_str(match self {
            Kind::Far => "far",
            Kind::Local => "local",
        })
    }
}

/// The time of a walk: its seconds and its number of roads. They are compared by seconds, then by fewer roads.
#[derive(Clone, Copy, Debug, PartialEq, Eq, PartialOrd, Ord)]
pub struct Time {
    pub seconds: u32,
    pub roads: u32,
}

impl Time {
    /// The time that two such numbers stand for: `NO_WALK` is none.
    pub fn of(number: u32, roads: u32) -> Option<Time> {
        seconds(number).map(|seconds| Time { seconds, roads })
    }
}

/// A time (or none), with the kind of the pair and the pairs tried.
#[derive(Clone, Copy, Debug, PartialEq, Eq)]
pub struct Answer {
    pub time: Option<Time>,
    pub kind: Kind,
    pub pairs: u32,
}

impl Answer {
    pub fn seconds(&self) -> Option<u32> {
        self.time.map(|time| time.seconds)
    }
}

/// The size of an oracle in bytes, and its number of transit nodes.
#[derive(Clone, Copy, Debug, PartialEq, Eq)]
pub struct Built {
    pub size: usize,
    pub transit: usize,
}

/// The most nodes that either side of a block may name.
pub const SIDE: usize = 12;

/// All times between the starts and the ends of a call: a row for each start, a column for each end; and the like for roads.
#[derive(Clone, Copy, Debug, PartialEq, Eq)]
pub struct Block {
    /// The seconds as the core has them: `NO_WALK` for none, 0 in unused squares.
    pub times: [[u32; SIDE]; SIDE],
    /// The numbers of roads likewise: `NO_ROADS` for none.
    pub roads: [[u32; SIDE]; SIDE],
}

impl Block {
    /// From start i to end j, by their positions in the call.
    pub fn time(&self, i: usize, j: usize) -> Option<Time> {
        Time::of(self.times[i][j], self.roads[i][j])
    }

    pub fn seconds(&self, i: usize, j: usize) -> Option<u32> {
        seconds(self.times[i][j])
    }
}

/// The functions of the static library. A slice crosses as a pointer and a length.
pub mod raw {
    use super::SIDE;

    #[repr(C)]
    #[derive(Clone, Copy, Debug, PartialEq, Eq)]
    pub struct Built {
        pub rule: u32,
        pub size: u32,
        pub transit: u32,
    }

    #[repr(C)]
    #[derive(Clone, Copy, Debug, PartialEq, Eq)]
    pub struct Answer {
        pub rule: u32,
        pub kind: u32,
        pub seconds: u32,
        pub roads: u32,
        pub pairs: u32,
    }

    #[repr(C)]
    #[derive(Clone, Copy, Debug, PartialEq, Eq)]
    pub struct Route {
        pub rule: u32,
        pub nodes: u32,
    }

    /// A part of the oracle; empty, at 0, where it is refused.
    #[repr(C)]
    #[derive(Clone, Copy, Debug, PartialEq, Eq)]
    pub struct Part {
        pub start: usize,
        pub size: usize,
    }

    #[repr(C)]
    #[derive(Clone, Copy, Debug, PartialEq, Eq)]
    pub struct Times {
        pub rule: u32,
        pub times: [[u32; SIDE]; SIDE],
        pub roads: [[u32; SIDE]; SIDE],
    }

    /// Of a call that writes output: how many bytes its result takes. A sheet may take more than 32 bits can tell.
    #[repr(C)]
    #[derive(Clone, Copy, Debug, PartialEq, Eq)]
    pub struct Output {
        pub rule: u32,
        pub size: usize,
    }

    extern "C" {
        pub fn jukesogbi_build(network: *const u8, network_size: usize, g: u32, work: *mut u32, words: usize, out: *mut u8, room: usize) -> Built;
        pub fn jukesogbi_audit(oracle: *const u8, oracle_size: usize, work: *mut u32, words: usize) -> u32;
        pub fn jukesogbi_time(oracle: *const u8, oracle_size: usize, s: u32, t: u32, work: *mut u32, words: usize) -> Answer;
        pub fn jukesogbi_far(oracle: *const u8, oracle_size: usize, s: u32, t: u32) -> Answer;
        pub fn jukesogbi_list(oracle: *const u8, oracle_size: usize, u: u32) -> Part;
        pub fn jukesogbi_list_rule(oracle: *const u8, oracle_size: usize, u: u32) -> u32;
        pub fn jukesogbi_way(oracle: *const u8, oracle_size: usize, s: u32, t: u32, work: *mut u32, words: usize, out: *mut u8, room: usize) -> Route;
        pub fn jukesogbi_block(
            oracle: *const u8, oracle_size: usize, starts: *const u32, starts_count: usize, ends: *const u32, ends_count: usize, work: *mut u32, words: usize,
        ) -> Times;
        pub fn jukesogbi_time_under(
            oracle: *const u8, oracle_size: usize, sheet: *const u8, sheet_size: usize, s: u32, t: u32, work: *mut u32, words: usize,
        ) -> Answer;
        pub fn jukesogbi_way_under(
            oracle: *const u8, oracle_size: usize, sheet: *const u8, sheet_size: usize, s: u32, t: u32, work: *mut u32, words: usize, out: *mut u8, room: usize,
        ) -> Route;
        pub fn jukesogbi_wages(
            oracle: *const u8, oracle_size: usize, legs: *const u8, legs_size: usize, work: *mut u32, words: usize, out: *mut u8, room: usize,
        ) -> Output;
        pub fn jukesogbi_convert(network: *const u8, network_size: usize, out: *mut u8, room: usize) -> Output;
        pub fn jukesogbi_convert_sheet(
            network: *const u8, network_size: usize, sheet: *const u8, sheet_size: usize, out: *mut u8, room: usize,
        ) -> Output;
    }

    // The questions over an opened oracle, which are in no header. The duty that they ask for (crates/opened_capi) is `Oracle`'s: bytes and words are as
    // `jukesogbi_open` or the last question left them.
    extern "C" {
        pub fn jukesogbi_open(oracle: *const u8, oracle_size: usize, work: *mut u32, words: usize) -> u32;
        pub fn jukesogbi_opened_time(oracle: *const u8, oracle_size: usize, s: u32, t: u32, work: *mut u32, words: usize) -> Answer;
        pub fn jukesogbi_opened_far(oracle: *const u8, oracle_size: usize, s: u32, t: u32, work: *const u32, words: usize) -> Answer;
        pub fn jukesogbi_opened_way(oracle: *const u8, oracle_size: usize, s: u32, t: u32, work: *mut u32, words: usize, out: *mut u8, room: usize) -> Route;
        pub fn jukesogbi_opened_block(
            oracle: *const u8, oracle_size: usize, starts: *const u32, starts_count: usize, ends: *const u32, ends_count: usize, work: *mut u32, words: usize,
        ) -> Times;
        pub fn jukesogbi_opened_time_under(
            oracle: *const u8, oracle_size: usize, sheet: *const u8, sheet_size: usize, s: u32, t: u32, work: *mut u32, words: usize,
        ) -> Answer;
        pub fn jukesogbi_opened_way_under(
            oracle: *const u8, oracle_size: usize, sheet: *const u8, sheet_size: usize, s: u32, t: u32, work: *mut u32, words: usize, out: *mut u8, room: usize,
        ) -> Route;
        pub fn jukesogbi_opened_wages(
            oracle: *const u8, oracle_size: usize, legs: *const u8, legs_size: usize, work: *mut u32, words: usize, out: *mut u8, room: usize,
        ) -> Output;
    }
}

/// In `raw::Answer`, a block's squares and the times of legs, and in an oracle's bodies 6 and 7: no walk.
pub const NO_WALK: u32 = u32::MAX;

/// The number of roads beside it, wherever there is one.
pub const NO_ROADS: u32 = u16::MAX as u32;

/// The seconds that such a number stands for.
pub fn seconds(number: u32) -> Option<u32> {
    (number != NO_WALK).then_some(number)
}

pub(crate) fn route(r: raw::Route) -> Result<usize, Refused> {
    if r.rule != 0 {
        return Err(Refused(r.rule));
    }
    Ok(r.nodes as usize)
}

pub(crate) fn squares(b: raw::Times) -> Result<Block, Refused> {
    if b.rule != 0 {
        return Err(Refused(b.rule));
    }
    Ok(Block { times: b.times, roads: b.roads })
}

pub(crate) fn written(o: raw::Output) -> Result<usize, Refused> {
    if o.rule != 0 {
        return Err(Refused(o.rule));
    }
    Ok(o.size)
}

pub(crate) fn answer(a: raw::Answer) -> Result<Answer, Refused> {
    if a.rule != 0 {
        return Err(Refused(a.rule));
    }
    Ok(Answer {
        time: Time::of(a.seconds, a.roads),
        kind: if a.kind == 1 { Kind::Far } else { Kind::Local },
        pairs: a.pairs,
    })
}

// In each call below the pointers and lengths are those of slices that live through the call, and the core writes to `work` and `out` alone,
// within their lengths.

pub fn build(network: &[u8], g: u32, work: &mut [u32], out: &mut [u8]) -> Result<Built, Refused> {
    let b = unsafe { raw::jukesogbi_build(network.as_ptr(), network.len(), g, work.as_mut_ptr(), work.len(), out.as_mut_ptr(), out.len()) };
    if b.rule != 0 {
        return Err(Refused(b.rule));
    }
    Ok(Built { size: b.size as usize, transit: b.transit as usize })
}

pub fn audit(oracle: &[u8], work: &mut [u32]) -> Result<(), Refused> {
    match unsafe { raw::jukesogbi_audit(oracle.as_ptr(), oracle.len(), work.as_mut_ptr(), work.len()) } {
        0 => Ok(()),
        rule => Err(Refused(rule)),
    }
}

pub fn time(oracle: &[u8], s: u32, t: u32, work: &mut [u32]) -> Result<Answer, Refused> {
    answer(unsafe { raw::jukesogbi_time(oracle.as_ptr(), oracle.len(), s, t, work.as_mut_ptr(), work.len()) })
}

pub fn far(oracle: &[u8], s: u32, t: u32) -> Result<Answer, Refused> {
    answer(unsafe { raw::jukesogbi_far(oracle.as_ptr(), oracle.len(), s, t) })
}

/// The access list of u, as that part of the oracle, its count included.
pub fn list(oracle: &[u8], u: u32) -> Result<&[u8], Refused> {
    let part = unsafe { raw::jukesogbi_list(oracle.as_ptr(), oracle.len(), u) };
    // No list is empty: it has its count.
    if part.size == 0 {
        return Err(Refused(list_rule(oracle, u)));
    }
    Ok(&oracle[part.start..][..part.size])
}

/// The number of the rule for which the list of u is refused, or 0.
pub fn list_rule(oracle: &[u8], u: u32) -> u32 {
    unsafe { raw::jukesogbi_list_rule(oracle.as_ptr(), oracle.len(), u) }
}

/// Writes the nodes of the way as 16-bit numbers at the front of `out`, and answers how many they are.
pub fn way(oracle: &[u8], s: u32, t: u32, work: &mut [u32], out: &mut [u8]) -> Result<usize, Refused> {
    route(unsafe { raw::jukesogbi_way(oracle.as_ptr(), oracle.len(), s, t, work.as_mut_ptr(), work.len(), out.as_mut_ptr(), out.len()) })
}

/// All times between up to 12 starts and 12 ends.
pub fn block(oracle: &[u8], starts: &[u32], ends: &[u32], work: &mut [u32]) -> Result<Block, Refused> {
    let (s, t) = (starts.as_ptr(), ends.as_ptr());
    squares(unsafe { raw::jukesogbi_block(oracle.as_ptr(), oracle.len(), s, starts.len(), t, ends.len(), work.as_mut_ptr(), work.len()) })
}

/// The time under a day sheet.
pub fn time_under(oracle: &[u8], sheet: &[u8], s: u32, t: u32, work: &mut [u32]) -> Result<Answer, Refused> {
    let (o, l) = (oracle.as_ptr(), sheet.as_ptr());
    answer(unsafe { raw::jukesogbi_time_under(o, oracle.len(), l, sheet.len(), s, t, work.as_mut_ptr(), work.len()) })
}

/// The way under a day sheet, written as `way` does.
pub fn way_under(oracle: &[u8], sheet: &[u8], s: u32, t: u32, work: &mut [u32], out: &mut [u8]) -> Result<usize, Refused> {
    let (o, l) = (oracle.as_ptr(), sheet.as_ptr());
    route(unsafe { raw::jukesogbi_way_under(o, oracle.len(), l, sheet.len(), s, t, work.as_mut_ptr(), work.len(), out.as_mut_ptr(), out.len()) })
}

/// Writes the times of these legs and what they come to (see `wages`) at the front of `out`, and answers how many bytes they take.
pub fn wages(oracle: &[u8], legs: &[u8], work: &mut [u32], out: &mut [u8]) -> Result<usize, Refused> {
    let (o, l) = (oracle.as_ptr(), legs.as_ptr());
    written(unsafe { raw::jukesogbi_wages(o, oracle.len(), l, legs.len(), work.as_mut_ptr(), work.len(), out.as_mut_ptr(), out.len()) })
}

/// Writes the network without its closed roads at the front of `out`, and answers how many bytes it takes: no more than the network's own.
pub fn convert(network: &[u8], out: &mut [u8]) -> Result<usize, Refused> {
    written(unsafe { raw::jukesogbi_convert(network.as_ptr(), network.len(), out.as_mut_ptr(), out.len()) })
}

/// Writes the lines of a day sheet of this network that are about the roads that `convert` keeps, by their new numbers, and answers how many bytes the new
/// sheet takes: no more than the sheet's own.
pub fn convert_sheet(network: &[u8], sheet: &[u8], out: &mut [u8]) -> Result<usize, Refused> {
    let (n, l) = (network.as_ptr(), sheet.as_ptr());
    written(unsafe { raw::jukesogbi_convert_sheet(n, network.len(), l, sheet.len(), out.as_mut_ptr(), out.len()) })
}
