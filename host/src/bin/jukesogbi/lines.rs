//! The lines of a stream, with no more memory than the longest line that is kept takes.

use std::io::{self, BufRead, BufReader, ErrorKind, Read};

/// The most bytes of a line that is taken as it is.
pub const LONGEST: usize = 4096;

pub enum Line<'a> {
    Whole(&'a [u8]),
    TooLong,
}

pub struct Lines<R> {
    from: BufReader<R>,
    line: Vec<u8>,
    /// Whether the last line was too long, so that its rest is still to be passed over.
    cut: bool,
    /// The number of the last line, from 1.
    pub number: u64,
}

impl<R: Read> Lines<R> {
    pub fn of(from: R) -> Lines<R> {
        Lines { from: BufReader::with_capacity(1 << 16, from), line: Vec::with_capacity(LONGEST), cut: false, number: 0 }
    }

    /// Whether the next line is here already, so that nobody is waited for.
    pub fn waiting(&self) -> bool {
        !self.cut && self.from.buffer().contains(&b'\n')
    }

    /// The next line, without its end; the last one may have none. One that is too long is told of before its end is there.
    pub fn next(&mut self) -> io::Result<Option<Line<'_>>> {
        self.line.clear();
        let mut began = false;
        loop {
            let part = match self.from.fill_buf() {
                Err(e) if e.kind() == ErrorKind::Interrupted => continue,
                part => part?,
            };
            if part.is_empty() && !began {
                return Ok(None);
            }
            let end = part.iter().position(|&b| b == b'\n');
            let (text, ended) = (&part[..end.unwrap_or(part.len())], part.is_empty() || end.is_some());
            let taken = end.map_or(part.len(), |end| end + 1);
            if self.cut {
                self.cut = !ended;
                self.from.consume(taken);
                continue;
            }
            began = true;
            let kept = text.len().min(LONGEST - self.line.len());
            let long = kept < text.len();
            self.cut = long && !ended;
            self.line.extend_from_slice(&text[..kept]);
            self.from.consume(taken);
            if ended || long {
                self.number += 1;
                return Ok(Some(if long { Line::TooLong } else { Line::Whole(&self.line) }));
            }
        }
    }
}

/// The most bytes of a line that are shown.
const SHOWN: usize = 60;

/// A line for a message.
pub fn shown(bytes: &[u8]) -> String {
    let (shown, rest) = bytes.split_at(bytes.len().min(SHOWN));
    format!("{}{}", shown.escape_ascii(), if rest.is_empty() { "" } else { ".." })
}
