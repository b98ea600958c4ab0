//! What questions are put to: an oracle, and the day sheet where one is named.

use crate::args::{Call, Lend};
use crate::input::{self, Input};
use crate::stop::Stop;
use jukesogbi::core::{self, Answer, Refused};
use jukesogbi::files::Kind;
use jukesogbi::oracle::Oracle;
use jukesogbi::sheet;
use std::ffi::OsStr;

pub struct Basis {
    pub oracle: Input,
    pub sheet: Option<Input>,
}

impl Basis {
    /// The oracle is the command's first word.
    pub fn read(call: &Call) -> Result<Basis, Stop> {
        Basis::beside(call, None)
    }

    /// The same where standard input has lines of this kind.
    pub fn beside_lines(call: &Call, lines: &str) -> Result<Basis, Stop> {
        Basis::beside(call, Some((lines, Some(OsStr::new("-")))))
    }

    fn beside(call: &Call, lines: Option<(&str, Option<&OsStr>)>) -> Result<Basis, Stop> {
        let files = [("the oracle", Some(call.words[0].as_os_str())), ("the sheet", call.sheet)];
        input::one_stream(files.into_iter().chain(lines))?;
        Ok(Basis { oracle: call.oracle(0)?, sheet: call.sheet.map(|name| Input::read(name, Kind::Sheet)).transpose()? })
    }

    /// What the core said, and beside a refusal a word on the file that it is about.
    fn judged<T>(&self, verdict: Result<T, Refused>) -> Result<T, Stop> {
        match (&self.sheet, &verdict) {
            (Some(sheet), Err(Refused(sheet::FORM))) => sheet.judged(verdict),
            _ => self.oracle.judged(verdict),
        }
    }

    pub fn time(&self, s: u32, t: u32, lend: &Lend) -> Result<Answer, Stop> {
        let (o, mut work) = (&self.oracle, lend.words(&self.oracle)?);
        self.judged(match &self.sheet {
            Some(sheet) => core::time_under(o, sheet, s, t, &mut work),
            None => core::time(o, s, t, &mut work),
        })
    }

    /// The number of the way's nodes, which it writes.
    pub fn way(&self, s: u32, t: u32, lend: &Lend, out: &mut [u8]) -> Result<usize, Stop> {
        let (o, mut work) = (&self.oracle, lend.words(&self.oracle)?);
        self.judged(match &self.sheet {
            Some(sheet) => core::way_under(o, sheet, s, t, &mut work, out),
            None => core::way(o, s, t, &mut work, out),
        })
    }

    /// Whether the two are accepted: by the list of node 0, which is refused for rules 1 to 11 alone; with a sheet by the time from node 0 to itself.
    pub fn check(&self, lend: &Lend) -> Result<(), Stop> {
        match self.sheet {
            Some(_) => self.time(0, 0, lend).map(drop),
            None => self.judged(core::list(&self.oracle, 0)).map(drop),
        }
    }

    /// The oracle, opened in the words lent. A sheet is checked first: its rules come before that of the words.
    pub fn open(&self, lend: &Lend) -> Result<Oracle<'_>, Stop> {
        if self.sheet.is_some() {
            self.check(lend)?;
        }
        self.judged(Oracle::open_in(&self.oracle[..], lend.words(&self.oracle)?))
    }

    // The oracle of these two is that of `open`.

    pub fn opened_time(&self, opened: &mut Oracle, s: u32, t: u32) -> Result<Answer, Refused> {
        match &self.sheet {
            Some(sheet) => opened.time_under(sheet, s, t),
            None => opened.time(s, t),
        }
    }

    pub fn opened_way(&self, opened: &mut Oracle, s: u32, t: u32, out: &mut [u8]) -> Result<usize, Refused> {
        match &self.sheet {
            Some(sheet) => opened.way_under(sheet, s, t, out),
            None => opened.way(s, t, out),
        }
    }
}
