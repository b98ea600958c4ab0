//! The demonstration: a sample network under two grids, audited, asked and drawn.

use crate::args::Call;
use crate::output::Output;
use crate::questions::nodes_text;
use crate::stop::{fault, Done, Stop};
use jukesogbi::form::NUMBER_SIZE;
use jukesogbi::{core, draw, files, sample, text};
use std::ffi::OsStr;

const NODES: usize = 60;
const SEED: u64 = 2;
const PICTURE: &str = "demo.svg";

pub fn run(call: &mut Call) -> Done {
    let net = sample::network(NODES, SEED);
    let network = net.to_bytes();
    let out = &mut *call.out;
    out.say(format_args!("a sample: {} places, {} roads", net.nodes.len(), net.edges.len()))?;
    let mut work = vec![0; files::words_needed(&network)];
    let oracles = [build(out, &network, 8, &mut work)?, build(out, &network, 16, &mut work)?];
    let pairs = [(0, 59), (7, 52), (3, 40), (12, 13)];
    for (s, t) in pairs {
        let answers = [core::time(&oracles[0], s, t, &mut work)?, core::time(&oracles[1], s, t, &mut work)?];
        let [coarse, fine] = answers.map(|a| format!("{} {}", text::time(a.time), a.kind));
        out.say(format_args!("time {s} to {t}: grid 8 says {coarse}, grid 16 says {fine}"))?;
    }
    compare(out, &oracles, &mut work)?;
    let (s, t) = pairs[0];
    let mut room = vec![0; NUMBER_SIZE * NODES];
    let nodes = core::way(&oracles[0], s, t, &mut work, &mut room)?;
    let way = files::numbers(&room[..NUMBER_SIZE * nodes]);
    out.say(format_args!("way {s} to {t}: {}", nodes_text(&way)))?;
    out.deliver(OsStr::new(PICTURE), draw::svg(&oracles[0], None, Some((s, t)), &way).as_bytes(), &format!("drawn: {PICTURE}"))
}

fn build(out: &mut Output, network: &[u8], g: u32, work: &mut [u32]) -> Result<Vec<u8>, Stop> {
    let mut oracle = vec![0; files::most_room(network)];
    let built = core::build(network, g, work, &mut oracle)?;
    oracle.truncate(built.size);
    core::audit(&oracle, work)?;
    out.say(format_args!("grid {g}: built {} bytes, {} transit, accepted by the audit", built.size, built.transit))?;
    Ok(oracle)
}

/// Every pair under both grids.
fn compare(out: &mut Output, oracles: &[Vec<u8>; 2], work: &mut [u32]) -> Done {
    let n = NODES as u32;
    for (s, t) in (0..n).flat_map(|s| (0..n).map(move |t| (s, t))) {
        let (a, b) = (core::time(&oracles[0], s, t, work)?, core::time(&oracles[1], s, t, work)?);
        if a.time != b.time {
            return fault(format!("the grids differ on {s} to {t}"));
        }
    }
    out.say(format_args!("both grids answer alike on all {} pairs", n * n))
}
