//! The text of the listing program.

use crate::core::Refused;
use crate::files;
use crate::oracle::Oracle;
use crate::text;
use std::io::{self, Write};

/// As many bytes of an oracle are read, the first, if it is longer (document 01, the listing program). `write` itself lists an oracle of any size.
pub const READ: usize = 28_672;

/// Writes the listing, or `refused R`. The inner result is the refusal.
pub fn write(oracle: &[u8], out: &mut impl Write) -> io::Result<Result<(), Refused>> {
    let mut opened = match Oracle::open(oracle) {
        Ok(opened) => opened,
        Err(refused) => {
            writeln!(out, "refused {}", refused.0)?;
            return Ok(Err(refused));
        }
    };
    let n = files::node_count(oracle) as u32;
    writeln!(out, "places {n} transit {}", files::transit_nodes(oracle).len())?;
    for s in 0..n {
        for t in s + 1..n {
            match opened.time(s, t) {
                Ok(a) => writeln!(out, "{s} {t} {} {}", text::number(a.seconds()), a.kind)?,
                Err(refused) => return Ok(Err(refused)),
            }
        }
    }
    Ok(Ok(()))
}
