//! Answers under day sheets, each beside the opened way of the same pairs, which has to be searched in any case.

use super::{answered, assert_same, open, pairs, prepared, timed, Case, Pairs, ANSWERS};
use crate::output::Output;
use crate::stop::Done;
use jukesogbi::files::{self, Network};
use jukesogbi::form::NUMBER_SIZE;
use jukesogbi::plain::{self, key_of, Graph, Search};
use jukesogbi::sample::Random;
use jukesogbi::sheet::{self, Line};
use std::time::Duration;

/// The numbers of lines that are tried.
const LINES: [usize; 2] = [10, 1000];

/// Of so many random pairs one is asked, as of the ways.
const STEP: usize = 10;

/// A row to be shown later: its name, how many answers it is of, and the times under the sheet and of the ways.
pub struct Row(String, usize, (Duration, Duration));

impl Row {
    pub fn show(&self, out: &mut Output) -> Done {
        answered(out, &self.0, self.1, self.2)
    }
}

/// Lines about random roads in no order: a third of them closed, the others delayed by up to ten minutes.
fn random_sheet(net: &Network, count: usize) -> Vec<u8> {
    let mut random = Random(count as u64);
    let mut line = || {
        let road = random.below(net.edges.len() as u64) as u16;
        if random.once_in(3) { Line::Closed(road) } else { Line::Delayed(road, random.below(600) as u32) }
    };
    sheet::of((0..count).map(|_| line()))
}

/// Far pairs and local ones, under each number of lines. There are none over a network without roads.
pub fn rows(case: &Case) -> Vec<Row> {
    let (net, (_, cells, _)) = (files::network(&case.oracle), prepared(&case.oracle));
    if net.edges.is_empty() {
        return Vec::new();
    }
    let (far, local) = pairs(net.nodes.len(), &cells, ANSWERS);
    let some = |pairs: Pairs| pairs.into_iter().step_by(STEP).collect::<Pairs>();
    let kinds = [("far", some(far)), ("local", some(local))];
    let asked = LINES.iter().flat_map(|&count| kinds.iter().map(move |(kind, pairs)| (count, kind, pairs))).filter(|(.., pairs)| !pairs.is_empty());
    asked.flat_map(|(count, kind, pairs)| ask(case, &net, count, kind, pairs)).collect()
}

/// Times and ways of these pairs under one sheet. What plain Rust finds on the roads as the sheet leaves them must be the same.
fn ask(case: &Case, net: &Network, count: usize, kind: &str, pairs: &[(u32, u32)]) -> [Row; 2] {
    let (sheet, n) = (random_sheet(net, count), net.nodes.len());
    let (mut opened, mut beside, mut room, mut other) = (open(case), open(case), vec![0; NUMBER_SIZE * n], vec![0; NUMBER_SIZE * n]);
    let mut ways = || pairs.iter().for_each(|&(s, t)| assert!(beside.way(s, t, &mut other).is_ok()));
    let (mut sum, mut nodes) = (0, 0);
    let times = timed(5, || sum = pairs.iter().map(|&(s, t)| key_of(opened.time_under(&sheet, s, t).unwrap().time)).sum(), &mut ways);
    let routes = timed(5, || nodes = pairs.iter().map(|&(s, t)| opened.way_under(&sheet, s, t, &mut room).unwrap() as u64).sum(), &mut ways);
    let today = Network { nodes: net.nodes.clone(), edges: sheet::applied(net, &sheet).into_iter().flatten().collect() };
    let (graph, mut search) = (Graph::of(&today), Search::new(n));
    let mut plain_time = |s: u32, t: u32| {
        search.run(&graph, s as usize, |u| u == t);
        search.times[t as usize]
    };
    assert_same((sum, pairs.iter().map(|&(s, t)| plain_time(s, t)).sum()));
    assert_same((nodes, pairs.iter().map(|&(s, t)| plain::way(&graph, &mut search, s as usize, t as usize).len() as u64).sum()));
    let row = |what: &str, times| Row(format!("{kind} {what} under {count} lines, {}", case.name), pairs.len(), times);
    [row("times", times), row("ways", routes)]
}
