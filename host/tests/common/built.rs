//! Oracles as the core builds them.

use jukesogbi::{core, files};

pub fn built(network: &[u8], g: u32) -> Vec<u8> {
    let mut out = vec![0; files::most_room(network)];
    let built = core::build(network, g, &mut vec![0; files::words_needed(network)], &mut out).unwrap();
    out.truncate(built.size);
    out
}
