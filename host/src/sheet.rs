//! Day sheets: their lines as bytes, as text, and over a network. For making and showing sheets only: which bytes are a sheet, and what it does to answers,
//! is the core's to say.

use crate::core::{self, Refused};
use crate::files::{self, Edge, Kind, Network};
use crate::form::*;
use std::collections::BTreeMap;
use std::fmt;
use std::str::FromStr;

/// A line about a road.
#[derive(Clone, Copy, Debug, PartialEq, Eq)]
pub enum Line {
    Closed(u16),
    /// The road takes so many seconds more.
    Delayed(u16, u32),
}

impl Line {
    pub fn road(self) -> u16 {
        match self {
            Line::Closed(road) | Line::Delayed(road, _) => road,
        }
    }

    fn bytes(self) -> [u8; LINE_SIZE] {
        let (first, added) = match self {
            Line::Closed(_) => (CLOSED_LINE, 0),
            Line::Delayed(_, added) => (DELAYED_LINE, added),
        };
        let ([a, b], [c, d, e, f]) = (self.road().to_le_bytes(), added.to_le_bytes());
        [first, a, b, c, d, e, f]
    }

    fn of(bytes: &[u8]) -> Line {
        let road = files::read16(bytes, 1);
        if bytes[0] == CLOSED_LINE { Line::Closed(road) } else { Line::Delayed(road, files::read32(bytes, 1 + NUMBER_SIZE)) }
    }
}

/// As `from_str` reads it.
impl fmt::Display for Line {
    fn fmt(&self, f: &mut fmt::Formatter<'_>) -> fmt::Result {
        match self {
            Line::Closed(road) => write!(f, "closed {road}"),
            Line::Delayed(road, added) => write!(f, "delayed {road} {added}"),
        }
    }
}

/// `closed ROAD` or `delayed ROAD SECONDS`, parted by blanks.
impl FromStr for Line {
    /// What is wrong.
    type Err = &'static str;

    fn from_str(text: &str) -> Result<Line, &'static str> {
        let road = |word: &str| word.parse().map_err(|_| "ROAD is a number from 0 to 65535");
        let words: Vec<&str> = text.split_whitespace().take(4).collect();
        match words[..] {
            ["closed", number] => Ok(Line::Closed(road(number)?)),
            ["delayed", number, added] => Ok(Line::Delayed(road(number)?, added.parse().map_err(|_| "SECONDS is a number from 0 to 4294967295")?)),
            _ => Err("a line is `closed ROAD` or `delayed ROAD SECONDS`"),
        }
    }
}

/// A sheet in the making: whole after each line.
#[derive(Clone, Debug)]
pub struct Sheet(Vec<u8>);

impl Default for Sheet {
    fn default() -> Sheet {
        Sheet(files::file(Kind::Sheet, &[Vec::new()]))
    }
}

impl Sheet {
    /// Puts a line behind the others. False where there is no memory for it, or its length could not be told in 32 bits.
    #[must_use]
    pub fn put(&mut self, line: Line) -> bool {
        let start = entry_at(SHEET_BODIES);
        let Ok(size) = u32::try_from(self.0.len() - start + LINE_SIZE) else { return false };
        if self.0.try_reserve(LINE_SIZE).is_err() {
            return false;
        }
        self.0.extend(line.bytes());
        self.0[start - LENGTH_SIZE..start].copy_from_slice(&size.to_le_bytes());
        true
    }

    pub fn bytes(&self) -> &[u8] {
        &self.0
    }
}

/// The sheet of these lines.
pub fn of(lines: impl IntoIterator<Item = Line>) -> Vec<u8> {
    let mut sheet = Sheet::default();
    assert!(lines.into_iter().all(|line| sheet.put(line)), "there is memory for the lines");
    sheet.0
}

/// The rule that a sheet breaks whose form is wrong.
pub const FORM: u32 = 18;

/// Whether these bytes are a sheet: the core looks at them beside the smallest oracle, a place without a road, where nothing but 18 comes before 19.
pub fn checked(sheet: &[u8]) -> Result<(), Refused> {
    let access = [START_SIZE as u8, 0, 0, 0, 0, 0].to_vec();
    let smallest = files::file(Kind::Oracle, &[vec![0; NODE_SIZE], vec![], vec![], vec![1, 0], vec![], access, vec![]]);
    match core::time_under(&smallest, sheet, 0, 0, &mut [0; WORDS]) {
        Err(Refused(FORM)) => Err(Refused(FORM)),
        _ => Ok(()),
    }
}

/// The lines of a sheet that the core has accepted.
pub fn lines(sheet: &[u8]) -> impl Iterator<Item = Line> + '_ {
    files::body(sheet, LINES).unwrap_or(&[]).chunks_exact(LINE_SIZE).map(Line::of)
}

/// Each road of a network as a sheet leaves it that the core has accepted beside it, none where that closes it: a closure holds over every delay of its road,
/// wherever it stands, and among delays the last holds.
pub fn applied(net: &Network, sheet: &[u8]) -> Vec<Option<Edge>> {
    let mut left: Vec<Option<Edge>> = net.edges.iter().copied().map(Some).collect();
    let mut delays = BTreeMap::new();
    for line in lines(sheet) {
        match line {
            Line::Closed(road) => left[road as usize] = None,
            Line::Delayed(road, added) => {
                delays.insert(road, added);
            }
        }
    }
    for (road, added) in delays {
        // A closed road has no delay: its sum might be any.
        if let Some(edge) = &mut left[road as usize] {
            edge.seconds += added;
        }
    }
    left
}

/// The roads that stay closed although the last line about them is a delay, in the order of their first closures.
pub fn closed_then_delayed(lines: impl IntoIterator<Item = Line>) -> Vec<u16> {
    let (mut roads, mut delayed_last) = (Vec::new(), BTreeMap::new());
    for line in lines {
        match line {
            Line::Closed(road) => {
                if delayed_last.insert(road, false).is_none() {
                    roads.push(road);
                }
            }
            Line::Delayed(road, _) => {
                delayed_last.entry(road).and_modify(|last| *last = true);
            }
        }
    }
    roads.retain(|road| delayed_last[road]);
    roads
}

#[cfg(test)]
mod tests {
    use super::*;

    #[test]
    fn lines_as_text() {
        for (text, line) in [("closed 0", Line::Closed(0)), ("closed 65535", Line::Closed(u16::MAX)), ("delayed 7 4294967295", Line::Delayed(7, u32::MAX))] {
            assert_eq!((text.parse(), line.to_string().as_str()), (Ok(line), text));
        }
        assert_eq!("\t delayed  7 0 \r".parse(), Ok(Line::Delayed(7, 0)));
        let wrong = |text: &str| text.parse::<Line>().unwrap_err();
        for text in ["", "closed", "closed 1 0", "delayed 1", "delayed 1 2 3", "Closed 1", "open 1", "closed 1 # a comment", "1 2 3"] {
            assert_eq!(wrong(text), "a line is `closed ROAD` or `delayed ROAD SECONDS`", "{text}");
        }
        for text in ["closed x", "closed -1", "closed 65536", "delayed 1.5 2", "delayed 65536 x"] {
            assert_eq!(wrong(text), "ROAD is a number from 0 to 65535", "{text}");
        }
        for text in ["delayed 1 x", "delayed 1 -1", "delayed 1 4294967296"] {
            assert_eq!(wrong(text), "SECONDS is a number from 0 to 4294967295", "{text}");
        }
    }

    #[test]
    fn lines_as_bytes() {
        assert_eq!(of([]), [1, 1, 8, 11, 0, 0, 0, 0, 0, 0, 0]);
        let some = [Line::Delayed(258, 66_051), Line::Closed(3), Line::Closed(3)];
        let bytes = of(some);
        assert_eq!(bytes[..11], [1, 1, 8, 11, 0, 0, 0, 21, 0, 0, 0]);
        assert_eq!(bytes[11..], [2, 2, 1, 3, 2, 1, 0, 1, 3, 0, 0, 0, 0, 0, 1, 3, 0, 0, 0, 0, 0]);
        assert_eq!(lines(&bytes).collect::<Vec<_>>(), some);
    }

    /// Five roads one after another, of ten seconds each, under these lines: the seconds of each, none where it is closed.
    fn left(some: &[Line]) -> [Option<u32>; 5] {
        let edges = (0..5).map(|i| Edge { first: i, second: i + 1, seconds: 10 }).collect();
        let net = Network { nodes: vec![(0, 0); 6], edges };
        let left = applied(&net, &of(some.iter().copied()));
        for (new, old) in left.iter().zip(&net.edges) {
            assert!(new.is_none_or(|edge| (edge.first, edge.second) == (old.first, old.second)), "{left:?}");
        }
        left.iter().map(|edge| edge.map(|edge| edge.seconds)).collect::<Vec<_>>().try_into().unwrap()
    }

    /// A closure holds over every delay, and the last delay over the others.
    #[test]
    fn over_a_network() {
        let (close, delay, ten) = (Line::Closed(0), |added| Line::Delayed(0, added), Some(10));
        assert_eq!(left(&[]), [ten; 5]);
        for lines in [&[close][..], &[close, delay(5)], &[delay(5), close], &[close, delay(5), close], &[delay(u32::MAX), close, delay(u32::MAX)]] {
            assert_eq!(left(lines), [None, ten, ten, ten, ten], "{lines:?}");
        }
        assert_eq!(left(&[delay(5), delay(3)]), [Some(13), ten, ten, ten, ten]);
        assert_eq!(left(&[delay(5), delay(0)]), [ten; 5]);
        // Other roads beside it: closed twice, closed with a delay of any seconds, delayed.
        let several = [Line::Closed(3), delay(3), Line::Delayed(1, u32::MAX), Line::Closed(1), Line::Closed(3), Line::Delayed(4, 7)];
        assert_eq!(left(&several), [Some(13), None, ten, None, Some(17)]);
    }

    #[test]
    fn roads_that_stay_closed() {
        let of = |text: &str| closed_then_delayed(text.split(", ").map(|line| line.parse().unwrap()));
        for none in ["closed 0", "delayed 0 1", "delayed 0 1, closed 0", "closed 0, delayed 0 1, closed 0", "closed 0, delayed 1 1", "delayed 0 1, delayed 0 0"]
        {
            assert_eq!(of(none), [], "{none}");
        }
        assert_eq!(of("closed 0, delayed 0 0"), [0]);
        assert_eq!(of("closed 0, closed 0, delayed 0 1, delayed 0 2"), [0]);
        assert_eq!(of("closed 0, delayed 0 1, closed 0, delayed 0 2"), [0]);
        assert_eq!(of("closed 7, closed 9, closed 8, delayed 8 1, delayed 65535 0, delayed 7 1, closed 9"), [7, 8]);
    }
}
