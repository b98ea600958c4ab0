//! An oracle that is checked once, when it is opened, and then answers many questions without being checked again.

use crate::core::{self, raw, Answer, Block, Refused};
use crate::files;
use std::borrow::Cow;

/// The bytes of an oracle that the core has accepted, with the working words that it has filled from them. Both are private, and the bytes are owned or
/// borrowed as they were: nothing but the core's own calls can change either, which is what those calls ask for.
#[derive(Clone, Debug)]
pub struct Oracle<'a> {
    bytes: Cow<'a, [u8]>,
    work: Vec<u32>,
}

impl<'a> Oracle<'a> {
    /// Checks the oracle, rules 1 to 11, and takes the working words that it needs.
    pub fn open(bytes: impl Into<Cow<'a, [u8]>>) -> Result<Oracle<'a>, Refused> {
        let bytes = bytes.into();
        let work = vec![0; files::words_needed(&bytes)];
        Oracle::open_in(bytes, work)
    }

    /// The same with these working words, which may be too few: rule 14.
    pub fn open_in(bytes: impl Into<Cow<'a, [u8]>>, mut work: Vec<u32>) -> Result<Oracle<'a>, Refused> {
        let bytes = bytes.into();
        // The pointers and lengths are those of slices that live through the call; the core writes to `work` alone, within its length.
        match unsafe { raw::jukesogbi_open(bytes.as_ptr(), bytes.len(), work.as_mut_ptr(), work.len()) } {
            0 => Ok(Oracle { bytes, work }),
            rule => Err(Refused(rule)),
        }
    }

    pub fn bytes(&self) -> &[u8] {
        &self.bytes
    }

    // In each call below the bytes and the words are as `open` or the last call left them.

    pub fn time(&mut self, s: u32, t: u32) -> Result<Answer, Refused> {
        core::answer(unsafe { raw::jukesogbi_opened_time(self.bytes.as_ptr(), self.bytes.len(), s, t, self.work.as_mut_ptr(), self.work.len()) })
    }

    pub fn far(&self, s: u32, t: u32) -> Result<Answer, Refused> {
        core::answer(unsafe { raw::jukesogbi_opened_far(self.bytes.as_ptr(), self.bytes.len(), s, t, self.work.as_ptr(), self.work.len()) })
    }

    /// Writes the nodes of the way as 16-bit numbers at the front of `out`, and answers how many they are.
    pub fn way(&mut self, s: u32, t: u32, out: &mut [u8]) -> Result<usize, Refused> {
        let (work, words) = (self.work.as_mut_ptr(), self.work.len());
        core::route(unsafe { raw::jukesogbi_opened_way(self.bytes.as_ptr(), self.bytes.len(), s, t, work, words, out.as_mut_ptr(), out.len()) })
    }

    /// All times between up to 12 starts and 12 ends.
    pub fn block(&mut self, starts: &[u32], ends: &[u32]) -> Result<Block, Refused> {
        let (work, words) = (self.work.as_mut_ptr(), self.work.len());
        let (s, t) = (starts.as_ptr(), ends.as_ptr());
        core::squares(unsafe { raw::jukesogbi_opened_block(self.bytes.as_ptr(), self.bytes.len(), s, starts.len(), t, ends.len(), work, words) })
    }

    /// The time under a day sheet, which is checked for each question.
    pub fn time_under(&mut self, sheet: &[u8], s: u32, t: u32) -> Result<Answer, Refused> {
        let (o, l, work, words) = (self.bytes.as_ptr(), sheet.as_ptr(), self.work.as_mut_ptr(), self.work.len());
        core::answer(unsafe { raw::jukesogbi_opened_time_under(o, self.bytes.len(), l, sheet.len(), s, t, work, words) })
    }

    /// The way under a day sheet, written as `way` does.
    pub fn way_under(&mut self, sheet: &[u8], s: u32, t: u32, out: &mut [u8]) -> Result<usize, Refused> {
        let (o, l, work, words) = (self.bytes.as_ptr(), sheet.as_ptr(), self.work.as_mut_ptr(), self.work.len());
        core::route(unsafe { raw::jukesogbi_opened_way_under(o, self.bytes.len(), l, sheet.len(), s, t, work, words, out.as_mut_ptr(), out.len()) })
    }

    /// The times of these legs and what they come to, written as `core::wages` does.
    pub fn wages(&mut self, legs: &[u8], out: &mut [u8]) -> Result<usize, Refused> {
        let (o, l, work, words) = (self.bytes.as_ptr(), legs.as_ptr(), self.work.as_mut_ptr(), self.work.len());
        core::written(unsafe { raw::jukesogbi_opened_wages(o, self.bytes.len(), l, legs.len(), work, words, out.as_mut_ptr(), out.len()) })
    }
}
