//! Files in no more memory than the largest one that is accepted takes, whatever is read.
//!
//! What begins with contents that break rule 1 breaks it, whatever stands behind them, and is read no further. Any other file F that is longer than all of
//! its bodies can be by their form is refused by some rule from 2 to 11 or by 21, and the core is handed a shorter file that it refuses by the same:
//!
//! - The contents of F do not join, or they join and end at no more than the most: F breaks 2. So do its first bytes, one more than the most: the contents
//!   are the same, and their end is not that of these bytes either.
//! - They join and end behind the most, but not where F ends: F breaks 2, and so do its first bytes, as many as the most.
//! - They join and end where F ends. The bodies together are larger than the most of each, so one is larger than its own most; let k be the first.
//!   Rule 2, and the rules of the bodies before k, go by the kinds and by these bodies: they are the same for F and for the file of those bodies, one byte
//!   more than the most of body k, and nothing in the bodies behind. That body is too large in both, which breaks the first of its rules: 3, 5, 7, 8, 9, 10
//!   or 11. (Lists rise, so no access body that keeps 10 is larger than its most.) Rule 21 is one of body 3, behind its first, so it is the same for both
//!   where k is behind that; the converter, which does not look at it, has the other rules of a network in the same order.
//!
//! The last two are told apart by the length of F. A stream is read on for it, and what is read is dropped; at most one byte more than the contents claim.
//!
//! A sheet may have any number of lines, so it takes the memory that it needs. What begins with wrong contents breaks 18, whatever stands behind them, and
//! is read no further; of any other sheet one byte more is read than its contents claim, which breaks 18 as anything longer does.

use crate::core::{self, Refused};
use crate::files::{self, Kind};
use crate::form::{self, entry_at};
use std::io::{self, Read};

/// What is first asked of a stream.
const STEP: usize = 1 << 16;

/// The bytes from a stream, at most so many.
pub fn up_to(from: &mut impl Read, most: usize) -> io::Result<Vec<u8>> {
    let mut bytes = Vec::new();
    fill(&mut bytes, from, most)?;
    Ok(bytes)
}

/// Puts bytes to these until there are so many or the stream ends.
fn fill(bytes: &mut Vec<u8>, from: &mut impl Read, most: usize) -> io::Result<()> {
    while bytes.len() < most {
        // Twice as much each time, but never room for more than the most.
        let step = bytes.len().max(STEP).min(most - bytes.len());
        bytes.try_reserve_exact(step)?;
        if from.by_ref().take(step as u64).read_to_end(bytes)? < step {
            break;
        }
    }
    Ok(())
}

/// A file that should be of this kind: as it is, or a shorter one that is refused by the same rule. `size` is the file's, where it is known.
pub fn file(from: &mut impl Read, kind: Kind, size: Option<u64>) -> io::Result<Vec<u8>> {
    match kind {
        Kind::Network => bounded(from, kind, size, |f| core::build(f, 1, &mut [], &mut []).map_or_else(|Refused(rule)| rule, |_| 0)),
        Kind::Oracle => bounded(from, kind, size, |f| core::list_rule(f, 0)),
        Kind::Sheet => sheet(from),
    }
}

/// A file of a kind that has a most, and whose first bytes tell whether it breaks rule 1.
fn bounded(from: &mut impl Read, kind: Kind, size: Option<u64>, rule: impl Fn(&[u8]) -> u32) -> io::Result<Vec<u8>> {
    let (bodies, most) = (kind.bodies(), form::most_size(kind.bodies()));
    let mut bytes = contents(from)?;
    if rule(&bytes) == 1 {
        return Ok(bytes);
    }
    fill(&mut bytes, from, most + 1)?;
    if bytes.len() <= most {
        return Ok(bytes);
    }
    let Some(end) = joined_end(&bytes, bodies).filter(|&end| end > most) else { return Ok(bytes) };
    let size = match size {
        Some(size) => size,
        None => bytes.len() as u64 + io::copy(&mut from.take((end - most) as u64), &mut io::sink())?,
    };
    if size == end as u64 {
        cut_body(&mut bytes, bodies);
    } else {
        bytes.truncate(most);
    }
    Ok(bytes)
}

fn sheet(from: &mut impl Read) -> io::Result<Vec<u8>> {
    let mut bytes = contents(from)?;
    if files::looks_like(&bytes, Kind::Sheet) {
        if let Some(end) = joined_end(&bytes, form::SHEET_BODIES) {
            fill(&mut bytes, from, end + 1)?;
        }
    }
    Ok(bytes)
}

/// Contents of any kind, to tell which they are.
fn contents(from: &mut impl Read) -> io::Result<Vec<u8>> {
    up_to(from, entry_at(form::ORACLE_BODIES))
}

/// Where the last body ends, if each follows the one before.
fn joined_end(f: &[u8], bodies: usize) -> Option<usize> {
    (0..bodies).try_fold(entry_at(bodies), |end, k| {
        let (offset, size) = files::entry(f, k);
        (offset == end).then_some(offset + size)
    })
}

/// Leaves one byte more than the most of the first body that is larger, and nothing of the bodies behind it.
fn cut_body(f: &mut Vec<u8>, bodies: usize) {
    let larger = (0..bodies).find(|&k| files::entry(f, k).1 > form::MOST[k]);
    let first = larger.expect("the bodies together are larger than the most of each");
    let (offset, size) = (files::entry(f, first).0, form::MOST[first] + 1);
    let end = offset + size;
    set_entry(f, first, offset, size);
    (first + 1..bodies).for_each(|k| set_entry(f, k, end, 0));
    f.truncate(end);
}

fn set_entry(f: &mut [u8], k: usize, offset: usize, size: usize) {
    let at = entry_at(k) + 1;
    f[at..at + 4].copy_from_slice(&(offset as u32).to_le_bytes());
    f[at + 4..at + 8].copy_from_slice(&(size as u32).to_le_bytes());
}
