//! The commands that make files: oracles, samples, pictures. (Those of day sheets are in `sheets`, the converter's in `convert`.)

use crate::args::Call;
use crate::basis::Basis;
use crate::output::complain;
use crate::progress::Clock;
use crate::questions::{no_way, way_nodes};
use crate::stop::{slip, Done, Stop};
use jukesogbi::form::MAX_NODES;
use jukesogbi::{core, draw, files, sample};

pub fn build(call: &mut Call) -> Done {
    let g = call.number(1)?;
    let network = call.network(0)?;
    let mut work = call.lend.words(&network)?;
    let mut out = call.lend.room(files::most_room(&network))?;
    let clock = Clock::start("building");
    let verdict = core::build(&network, g, &mut work, &mut out);
    drop(clock);
    let built = network.judged(verdict)?;
    call.deliver(2, &out[..built.size], &format!("built {} bytes, {} transit", built.size, built.transit))
}

/// A sample has as many places as a network may have.
pub fn sample_size(n: u32) -> Result<usize, Stop> {
    if (1..=MAX_NODES as u32).contains(&n) { Ok(n as usize) } else { slip(format!("a network has 1 to {MAX_NODES} places")) }
}

pub fn write_sample(call: &mut Call) -> Done {
    let (n, seed) = (sample_size(call.number(0)?)?, call.number(1)?);
    let net = sample::network(n, seed as u64);
    call.deliver(2, &net.to_bytes(), &format!("sample of {} places, {} roads", net.nodes.len(), net.edges.len()))
}

pub fn draw(call: &mut Call) -> Done {
    let pair = call.pair_if(2)?;
    let basis = Basis::read(call)?;
    let way = match pair {
        Some((s, t)) => way_nodes(call, &basis, s, t)?,
        None => basis.check(&call.lend).map(|()| Vec::new())?,
    };
    if let (Some((s, t)), []) = (pair, &way[..]) {
        complain(no_way(s, t));
    }
    let picture = draw::svg(&basis.oracle, basis.sheet.as_deref(), pair, &way);
    call.deliver(1, picture.as_bytes(), &format!("drawn {} places", files::node_count(&basis.oracle)))
}
