//! T-06's converter, from document 02's text alone: "takes an old network, leaves out its closed roads and gives each remaining road its old number less the
//! closed ones before it", and "also renumbers a day sheet and drops its lines about removed roads".

use super::sheets::{breaks_18, breaks_19, lines, sheet};
use super::*;

/// The number that a road of an old network gets, none where it is closed.
pub fn new_number(closed: &[u32], road: u32) -> Option<u32> {
    let before = closed.iter().filter(|&&other| other < road).count() as u32;
    (!closed.contains(&road)).then_some(road - before)
}

/// The old network, which breaks none of rules 1 to 7, without its closed roads.
pub fn converted(f: &[u8]) -> Vec<u8> {
    let (closed, roads) = (numbers_16(body(f, 3)), body(f, 2));
    let mut remaining = vec![0; roads.len() - ROAD * closed.len()];
    for (road, bytes) in roads.chunks(ROAD).enumerate() {
        if let Some(number) = new_number(&closed, road as u32) {
            remaining[ROAD * number as usize..][..ROAD].copy_from_slice(bytes);
        }
    }
    file(&[body(f, 1).to_vec(), remaining, Vec::new()])
}

/// A sheet of the old network, which breaks neither 18 nor 19 beside it, as one of the new.
pub fn converted_sheet(f: &[u8], old: &[u8]) -> Vec<u8> {
    let closed = numbers_16(body(f, 3));
    let renumbered = lines(old).filter_map(|line| Some((line.first, new_number(&closed, line.road as u32)? as u16, line.added as u32)));
    sheet(&renumbered.collect::<Vec<_>>())
}

/// 15 where the result has no room. The value is its length in bytes; there are no working words.
fn outcome(written: Vec<u8>, room: usize) -> Outcome<usize> {
    if room < written.len() {
        return Outcome::refused(15);
    }
    Outcome { result: Ok(written.len()), zeroed: 0, written }
}

/// The network's call: 1 to 7, 15.
pub fn convert(network: &[u8], room: usize) -> Outcome<usize> {
    match network_rule(network, NETWORK) {
        Some(rule) => Outcome::refused(rule),
        None => outcome(converted(network), room),
    }
}

/// The sheet's call: 1 to 7, 18, 19, 15.
pub fn convert_sheet(network: &[u8], sheet: &[u8], room: usize) -> Outcome<usize> {
    if let Some(rule) = network_rule(network, NETWORK) {
        return Outcome::refused(rule);
    }
    if breaks_18(sheet) {
        return Outcome::refused(18);
    }
    if breaks_19(sheet, &Map::of(network)) {
        return Outcome::refused(19);
    }
    outcome(converted_sheet(network, sheet), room)
}
