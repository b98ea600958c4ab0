//! Stored trials under day sheets: each a network, lines and a pair, with what the commands print. Those of tests/trials/sheets.txt are read here.

use super::networks::{self, Plan};
use super::program::oracle;
use super::reference::sheets::{Under, CLOSED, DELAYED};
use super::reference::{number_16, Answer};
use super::sheets::Line;
use jukesogbi::{sample, sheet};

const TABLE: &str = include_str!("../trials/sheets.txt");

pub struct Trial {
    /// The file that it stands in.
    pub table: &'static str,
    pub network: String,
    pub lines: Vec<Line>,
    pub pair: (u32, u32),
    pub told: Told,
}

/// The time and the way as the commands print them, or `refused N`. A trial may be of one of the two alone.
#[derive(Clone, Debug, PartialEq, Eq)]
pub struct Told {
    pub time: Option<String>,
    pub way: Option<String>,
}

// ---- The table ----

pub fn trials() -> Vec<Trial> {
    TABLE.lines().filter(|row| !row.is_empty() && !row.starts_with('#')).map(trial).collect()
}

/// `NETWORK | LINES | S T | TIME | WAY`. Where the time is refused, the way is refused so too.
fn trial(row: &str) -> Trial {
    let [network, lines, pair, time, way] = row.split('|').map(str::trim).collect::<Vec<_>>()[..] else { panic!("`{row}` has no five parts") };
    let (s, t) = pair.split_once(' ').unwrap_or_else(|| panic!("`{row}` has no pair"));
    let way = if time.starts_with("refused") { time } else { way };
    Trial {
        table: "sheets.txt",
        network: network.to_string(),
        lines: lines_of(lines),
        pair: (s.parse().unwrap(), t.parse().unwrap()),
        told: Told { time: Some(time.to_string()), way: Some(way.to_string()) },
    }
}

/// Lines as `jukesogbi sheet` reads them, parted by commas.
fn lines_of(text: &str) -> Vec<Line> {
    let line = |text: &str| match text.parse().unwrap_or_else(|cause| panic!("`{text}`: {cause}")) {
        sheet::Line::Closed(road) => (CLOSED, road, 0),
        sheet::Line::Delayed(road, added) => (DELAYED, road, added),
    };
    text.split(',').filter(|line| !line.is_empty()).map(line).collect()
}

/// As `lines_of` reads them; a line with another first byte, or a closure with seconds, as its numbers.
pub fn lines_text(lines: &[Line]) -> String {
    let text = |line: &Line| match *line {
        (CLOSED, road, 0) => sheet::Line::Closed(road).to_string(),
        (DELAYED, road, added) => sheet::Line::Delayed(road, added).to_string(),
        numbers => format!("{numbers:?}"),
    };
    lines.iter().map(text).collect::<Vec<_>>().join(", ")
}

// ---- The networks ----

/// The oracle of a network that trials name, under the grid that they are worked out with.
pub fn oracle_of(name: &str) -> Vec<u8> {
    let (plan, g) = match name {
        "line" => (networks::line(), 6),
        "fork" => (networks::fork(), 6),
        "fork-without-4" => (networks::fork_without_4(), 6),
        // With roads of 0 seconds.
        "junction" => (networks::junction(), 6),
        "ring" => (networks::ring(), 6),
        "tie" => (networks::tie(), 1),
        "side" => (Plan { places: vec![(0, 0), (30, 0), (31, 0)], roads: vec![(0, 1, 2), (1, 2, 0), (0, 2, 1)] }, 1),
        // Line with a road beside its first, or its second twice.
        "parallel-6" => (beside(6), 6),
        "parallel-7" => (beside(7), 6),
        "parallel-8" => (beside(8), 6),
        "doubled" => (Plan { roads: vec![(0, 1, 7), (1, 2, 9), (1, 2, 9)], ..networks::line() }, 6),
        // A road of the most seconds.
        "slow" => (Plan { roads: vec![(0, 1, 100_000)], ..networks::line() }, 6),
        "one-place" => (networks::one_place(), 64),
        // That of the example in docs/SHEETS.md.
        "sample-60" => (sample_60(), 8),
        _ => panic!("there is no network `{name}` for trials"),
    };
    oracle(&plan, g)
}

fn beside(seconds: u32) -> Plan {
    Plan { roads: vec![(0, 1, 7), (1, 2, 9), (1, 0, seconds)], ..networks::line() }
}

fn sample_60() -> Plan {
    let net = sample::network(60, 2);
    Plan { places: net.nodes, roads: net.edges.iter().map(|e| (e.first, e.second, e.seconds)).collect() }
}

// ---- What is told ----

impl Trial {
    /// What this trial is of, among a time and a way.
    pub fn part(&self, time: String, way: String) -> Told {
        Told { time: self.told.time.is_some().then_some(time), way: self.told.way.is_some().then_some(way) }
    }

    /// What the reference tells, with words and room enough.
    pub fn by_reference(&self, under: &Under) -> Told {
        let ((s, t), much) = (self.pair, 1_000);
        let (time, way) = (under.time(s, t, much), under.way(s, t, much, much));
        let places = || way.written.chunks(2).map(|place| number_16(place, 0) as u16).collect::<Vec<_>>();
        self.part(printed(time.result.map(|answer| time_text(&answer))), printed(way.result.map(|_| way_text(&places()))))
    }
}

pub fn printed(result: Result<String, u32>) -> String {
    result.unwrap_or_else(|rule| format!("refused {rule}"))
}

fn time_text(a: &Answer) -> String {
    let time = a.time.map_or("- -".to_string(), |pair| format!("{} {}", pair.seconds, pair.roads));
    format!("{time} {} {}", if a.far { "far" } else { "local" }, a.pairs)
}

pub fn way_text(places: &[u16]) -> String {
    places.iter().map(u16::to_string).collect::<Vec<_>>().join(" ")
}
