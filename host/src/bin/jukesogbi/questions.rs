//! The questions over an oracle, each by one call of the core that checks it.

use crate::answerer::{self, Reply};
use crate::args::Call;
use crate::basis::Basis;
use crate::input::Input;
use crate::output::complain;
use crate::progress::Clock;
use crate::stop::{Done, Stop};
use jukesogbi::core::Time;
use jukesogbi::form::NUMBER_SIZE;
use jukesogbi::{core, files, listing, text};

pub fn audit(call: &mut Call) -> Done {
    let o = call.oracle(0)?;
    let mut work = call.lend.words(&o)?;
    let clock = Clock::start("auditing");
    let verdict = core::audit(&o, &mut work);
    drop(clock);
    o.judged(verdict)?;
    call.out.line("accepted")
}

pub fn time(call: &mut Call) -> Done {
    let Some((s, t)) = call.pair_if(1)? else { return answerer::times(call) };
    let answer = Basis::read(call)?.time(s, t, &call.lend)?;
    call.out.line(text::answer(&answer))
}

pub fn far(call: &mut Call) -> Done {
    let Some((s, t)) = call.pair_if(1)? else { return answerer::fars(call) };
    let o = call.oracle(0)?;
    let answer = o.judged(core::far(&o, s, t))?;
    call.out.line(text::answer(&answer))
}

pub fn way(call: &mut Call) -> Done {
    let Some((s, t)) = call.pair_if(1)? else { return answerer::ways(call) };
    let basis = Basis::read(call)?;
    let reply = way_reply(&way_nodes(call, &basis, s, t)?, s, t);
    reply.note.into_iter().for_each(complain);
    call.out.line(reply.line)
}

/// The nodes of the way, none where there is none.
pub fn way_nodes(call: &Call, basis: &Basis, s: u32, t: u32) -> Result<Vec<u16>, Stop> {
    let mut out = call.lend.room(way_size(&basis.oracle))?;
    let nodes = basis.way(s, t, &call.lend, &mut out)?;
    Ok(files::numbers(&out[..NUMBER_SIZE * nodes]))
}

/// Bytes enough for a way, which has no node twice.
pub fn way_size(o: &[u8]) -> usize {
    NUMBER_SIZE * files::node_count(o)
}

pub fn way_reply(nodes: &[u16], s: u32, t: u32) -> Reply {
    Reply { line: nodes_text(nodes), note: nodes.is_empty().then(|| no_way(s, t)) }
}

pub fn nodes_text(nodes: &[u16]) -> String {
    nodes.iter().map(u16::to_string).collect::<Vec<_>>().join(" ")
}

pub fn no_way(s: u32, t: u32) -> String {
    format!("no way leads from {s} to {t}")
}

/// A line for each entry.
pub fn list(call: &mut Call) -> Done {
    let u = call.number(1)?;
    let o = call.oracle(0)?;
    for (index, (seconds, roads)) in files::list_entries(o.judged(core::list(&o, u))?) {
        call.out.line(format_args!("{index} {}", text::time(Time::of(seconds, roads.into()))))?;
    }
    Ok(())
}

/// A line for each start, with the seconds, or the roads, for each end.
pub fn block(call: &mut Call) -> Done {
    let (starts, ends) = (call.numbers(1)?, call.numbers(2)?);
    let o = call.oracle(0)?;
    let mut work = call.lend.words(&o)?;
    let block = o.judged(core::block(&o, &starts, &ends, &mut work))?;
    let shown = if call.roads { |time: Time| time.roads } else { |time: Time| time.seconds };
    for i in 0..starts.len() {
        let squares: Vec<String> = (0..ends.len()).map(|j| text::number(block.time(i, j).map(shown))).collect();
        call.out.line(squares.join(" "))?;
    }
    Ok(())
}

/// What document 01's listing program prints.
pub fn list_all(call: &mut Call) -> Done {
    let (o, more) = Input::first(&call.words[0], listing::READ)?;
    let Err(refused) = call.out.lines(|mut out| listing::write(&o, &mut out))? else { return Ok(()) };
    complain(refused);
    o.note(refused).into_iter().for_each(complain);
    if more {
        complain(format_args!("a listing reads {} bytes and no more, and this file is longer: `time` answers from all of it", listing::READ));
    }
    call.out.flush()?;
    Err(Stop::Answered { wrong: false })
}
