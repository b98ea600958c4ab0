//! The benchmark: the proved core beside plain Rust, its block and its wages beside single answers, answers under a sheet beside ways, and the core beside
//! plain Rust where roads are in random order, in one run on one machine.

mod roads;
mod sheets;
mod wages;

use crate::args::Call;
use crate::making::sample_size;
use crate::output::Output;
use crate::stop::{slip, Done, Stop};
use jukesogbi::files::Network;
use jukesogbi::form::{MAX_GRID, MAX_NODES, NUMBER_SIZE};
use jukesogbi::oracle::Oracle;
use jukesogbi::plain::{self, key_of, Cells, Graph, Key, Search, Tables};
use jukesogbi::sample::Random;
use jukesogbi::{core, files, sample};
use std::time::{Duration, Instant};

/// The least of a few timings of each of two pieces of work, done in turn, so that a machine that is busy for a while is so for both.
fn timed(times: usize, mut one: impl FnMut(), mut other: impl FnMut()) -> (Duration, Duration) {
    let mut least = (Duration::MAX, Duration::MAX);
    for _ in 0..times {
        let begun = Instant::now();
        one();
        let between = Instant::now();
        other();
        least = (least.0.min(between - begun), least.1.min(between.elapsed()));
    }
    least
}

/// The columns of a table that has the core beside plain Rust.
const BESIDE_PLAIN: &str = "| what | core | plain | unit | core's time / plain's |";

fn head(out: &mut Output, columns: &str) -> Done {
    out.say(format_args!("{columns}\n|---|---|---|---|---|"))
}

fn row(out: &mut Output, what: &str, core: f64, plain: f64, unit: &str, ratio: f64) -> Done {
    out.say(format_args!("| {what} | {core:.3} | {plain:.3} | {unit} | {ratio:.2} |"))
}

/// A row in which less is better.
fn spent(out: &mut Output, what: &str, core: Duration, plain: Duration) -> Done {
    row(out, what, core.as_secs_f64(), plain.as_secs_f64(), "s", core.as_secs_f64() / plain.as_secs_f64())
}

/// A row of `count` answers, in thousands a second; the ratio is of the times that they took.
fn answered(out: &mut Output, what: &str, count: usize, (core, plain): (Duration, Duration)) -> Done {
    let rate = |d: Duration| count as f64 / d.as_secs_f64() / 1000.0;
    row(out, what, rate(core), rate(plain), "thousand/s", core.as_secs_f64() / plain.as_secs_f64())
}

struct Case {
    oracle: Vec<u8>,
    name: String,
}

/// How often a build is timed: the longer it takes, the less often.
fn build_timings(net: &Network) -> usize {
    match net.edges.len() {
        0..=2048 => 9,
        2049..=8192 => 3,
        _ => 1,
    }
}

/// Builds with both, and stops where they differ.
fn building(out: &mut Output, net: &Network, name: &str, g: u32) -> Result<Case, Stop> {
    let network = net.to_bytes();
    let mut work = vec![0; files::words_needed(&network)];
    let mut oracle = vec![0; files::most_room(&network)];
    let (mut size, mut beside) = (0, Vec::new());
    let (core, plain) = timed(
        build_timings(net),
        || size = core::build(&network, g, &mut work, &mut oracle).expect("a sample is accepted").size,
        || beside = plain::build(&network, g),
    );
    oracle.truncate(size);
    assert!(oracle == beside, "the two oracles differ");
    let name = format!("{name}, g {g}");
    spent(out, &format!("build, {name}"), core, plain)?;
    Ok(Case { oracle, name })
}

/// What plain Rust answers from.
fn prepared(o: &[u8]) -> (Graph, Cells, Tables<'_>) {
    let net = files::network(o);
    (Graph::of(&net), Cells::over(&net.nodes, files::grid_number(o)), Tables::of(o))
}

type Pairs = Vec<(u32, u32)>;

/// Up to `count` random pairs that are far, and as many that are local.
fn pairs(n: usize, cells: &Cells, count: usize) -> (Pairs, Pairs) {
    let mut random = Random(7);
    let all: Pairs = (0..400_000).map(|_| (random.below(n as u64) as u32, random.below(n as u64) as u32)).collect();
    let (mut far, mut local): (Pairs, Pairs) = all.into_iter().partition(|&(s, t)| cells.far(s as usize, t as usize));
    far.truncate(count);
    local.truncate(count);
    (far, local)
}

/// How many answers of a kind are timed.
const ANSWERS: usize = 1000;

/// A check of the whole oracle, in megabytes a second: with the core, by the question for a list, which takes little else.
fn checking(out: &mut Output, case: &Case) -> Done {
    let o = &case.oracle;
    let (core, plain) = timed(5, || assert!(core::list(o, 0).is_ok()), || assert!(plain::well_shaped(o)));
    let rate = |d: Duration| o.len() as f64 / d.as_secs_f64() / 1e6;
    row(out, &format!("check an oracle, {}", case.name), rate(core), rate(plain), "MB/s", core.as_secs_f64() / plain.as_secs_f64())
}

/// The check, and questions over an oracle that is checked once, beside plain Rust.
fn asking(out: &mut Output, case: &Case) -> Done {
    checking(out, case)?;
    let (opened, (_, cells, tables)) = (open(case), prepared(&case.oracle));
    let (far, local) = pairs(files::node_count(&case.oracle), &cells, ANSWERS);
    if !far.is_empty() {
        let mut sums = (0, 0);
        let times = timed(
            5,
            || sums.0 += far.iter().map(|&(s, t)| key_of(opened.far(s, t).unwrap().time)).sum::<u64>(),
            || sums.1 += far.iter().map(|&(s, t)| tables.far(s as usize, t as usize)).sum::<u64>(),
        );
        assert_same(sums);
        answered(out, &format!("far answers, {}", case.name), far.len(), times)?;
    }
    searching(out, case, &far, &local)
}

fn open(case: &Case) -> Oracle<'_> {
    Oracle::open(case.oracle.as_slice()).expect("a built oracle is well-shaped")
}

fn assert_same(sums: (u64, u64)) {
    assert!(sums.0 == sums.1, "the two answer differently");
}

/// The questions that search: local answers, and ways of some of all pairs.
fn searching(out: &mut Output, case: &Case, far: &[(u32, u32)], local: &[(u32, u32)]) -> Done {
    let (mut opened, (graph, ..)) = (open(case), prepared(&case.oracle));
    let n = files::node_count(&case.oracle);
    let (mut search, mut room) = (Search::new(n), vec![0; NUMBER_SIZE * n]);
    let mut sums = (0, 0);
    let mut plain_local = |s: u32, t: u32| {
        search.run(&graph, s as usize, |u| u == t);
        search.times[t as usize]
    };
    let times = timed(
        5,
        || sums.0 += local.iter().map(|&(s, t)| key_of(opened.time(s, t).unwrap().time)).sum::<u64>(),
        || sums.1 += local.iter().map(|&(s, t)| plain_local(s, t)).sum::<u64>(),
    );
    answered(out, &format!("local answers, {}", case.name), local.len(), times)?;
    let ways: Pairs = far.iter().chain(local).copied().step_by(10).collect();
    let times = timed(
        5,
        || sums.0 += ways.iter().map(|&(s, t)| opened.way(s, t, &mut room).unwrap() as u64).sum::<u64>(),
        || sums.1 += ways.iter().map(|&(s, t)| plain::way(&graph, &mut search, s as usize, t as usize).len() as u64).sum::<u64>(),
    );
    assert_same(sums);
    answered(out, &format!("ways, {}", case.name), ways.len(), times)
}

/// The squares of a full block.
const SQUARES: usize = core::SIDE * core::SIDE;

fn keys(block: &core::Block) -> Vec<Key> {
    (0..SQUARES).map(|k| key_of(block.time(k / core::SIDE, k % core::SIDE))).collect()
}

/// A full block of random names over an opened oracle beside plain Rust. Hands back its name and time, and the time of single answers for its squares.
fn block(out: &mut Output, case: &Case) -> Result<(String, Duration, Duration), Stop> {
    let n = files::node_count(&case.oracle);
    let (mut opened, (graph, cells, tables)) = (open(case), prepared(&case.oracle));
    let mut search = Search::new(n);
    let mut random = Random(7);
    let mut names = || (0..core::SIDE).map(|_| random.below(n as u64) as u32).collect::<Vec<u32>>();
    let (starts, ends) = (names(), names());
    let (mut whole, mut beside, mut single) = (Vec::new(), Vec::new(), Vec::new());
    let (core, plain) = timed(
        5,
        || whole = keys(&opened.block(&starts, &ends).unwrap()),
        || beside = plain::block(&graph, &cells, &tables, &mut search, &starts, &ends),
    );
    let pairs = || starts.iter().flat_map(|&s| ends.iter().map(move |&t| (s, t)));
    let mut ask_each = || single = pairs().map(|(s, t)| key_of(opened.time(s, t).unwrap().time)).collect();
    let (calls, _) = timed(5, &mut ask_each, || ());
    assert!(whole == beside && whole == single, "the block, plain Rust and the single calls differ");
    let name = format!("block of {SQUARES}, {}", case.name);
    answered(out, &name, SQUARES, (core, plain))?;
    Ok((name, core, calls))
}

/// The sizes that are measured by default, as far as the number of nodes given.
const SIZES: [usize; 3] = [256, 1024, MAX_NODES];

/// The grids under which is built by default, and that of them under which is asked.
const GRIDS: [u32; 3] = [16, ASKED, 64];
const ASKED: u32 = 32;

/// Those sizes that are up to n; n alone where it is below them all, or a grid is given.
fn sizes_up_to(n: usize, grid: Option<u32>, sizes: &[usize]) -> Vec<usize> {
    if grid.is_some() || n < sizes[0] { vec![n] } else { sizes.iter().copied().filter(|&size| size <= n).collect() }
}

/// Sizes up to that given, or that one where it is below them all, with three grids; with a grid given, that size alone with that one.
pub fn run(call: &mut Call) -> Done {
    let (n, grid) = (call.number_if(0)?, call.number_if(1)?);
    let n = sample_size(n.unwrap_or(MAX_NODES as u32))?;
    if grid.is_some_and(|g| !(1..=MAX_GRID).contains(&g)) {
        return slip(format!("a grid has 1 to {MAX_GRID} cells a side"));
    }
    let grids = grid.map_or(GRIDS.to_vec(), |g| vec![g]);
    measure(call.out, &sizes_up_to(n, grid, &SIZES), &grids, grid.unwrap_or(ASKED))?;
    call.out.say("")?;
    roads::table(call.out, n, grid)
}

/// Builds under all grids, and asks under one.
fn measure(out: &mut Output, sizes: &[usize], grids: &[u32], asked: u32) -> Done {
    head(out, BESIDE_PLAIN)?;
    let (mut blocks, mut under, mut legs) = (Vec::new(), Vec::new(), Vec::new());
    for (&n, &g) in sizes.iter().flat_map(|n| grids.iter().map(move |g| (n, g))) {
        let case = building(out, &sample::network(n, 1), &format!("N {n}"), g)?;
        if g == asked {
            asking(out, &case)?;
            blocks.push(block(out, &case)?);
            under.extend(sheets::rows(&case));
            legs.extend(wages::rows(&case));
        }
    }
    out.say("")?;
    head(out, "| what | block | single answers | unit | block's time / single answers' |")?;
    blocks.iter().try_for_each(|(name, block, calls)| answered(out, name, SQUARES, (*block, *calls)))?;
    out.say("")?;
    head(out, "| what | under a sheet | ways without it | unit | time under the sheet / ways' |")?;
    under.iter().try_for_each(|row| row.show(out))?;
    out.say("")?;
    head(out, "| what | wages | single answers | unit | wages' time / single answers' |")?;
    legs.iter().try_for_each(|row| row.show(out))
}
