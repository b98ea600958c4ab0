//! The files that commands are given.

use crate::stop::{fault, Done, Stop};
use jukesogbi::core::{Refused, CONTENTS};
use jukesogbi::files::{looks_like, Kind};
use jukesogbi::reading;
use std::ffi::OsStr;
use std::fs::File;
use std::io::{self, Read};
use std::ops::Deref;

/// A file, as far as the core's verdict depends on it (see `reading`), and what the command wants it to be.
pub struct Input {
    bytes: Vec<u8>,
    kind: Kind,
}

impl Deref for Input {
    type Target = [u8];

    fn deref(&self) -> &[u8] {
        &self.bytes
    }
}

/// The name of a file, for messages.
pub fn title(name: &OsStr) -> &OsStr {
    if name == "-" { OsStr::new("standard input") } else { name }
}

/// Hands the file of this name, and its size where it is known, to a function that reads.
pub fn read<T>(name: &OsStr, get: impl FnOnce(&mut dyn Read, Option<u64>) -> io::Result<T>) -> Result<T, Stop> {
    let got = if name == "-" {
        get(&mut io::stdin().lock(), None)
    } else {
        File::open(name).and_then(|mut file| {
            let size = file.metadata().ok().filter(|m| m.is_file()).map(|m| m.len());
            get(&mut file, size)
        })
    };
    got.or_else(|e| fault(format!("cannot read {}: {e}", title(name).display())))
}

/// One of these, by their names, comes from standard input at the most.
pub fn one_stream<'a>(inputs: impl IntoIterator<Item = (&'a str, Option<&'a OsStr>)>) -> Done {
    let streams: Vec<&str> = inputs.into_iter().filter(|(_, name)| *name == Some(OsStr::new("-"))).map(|(what, _)| what).collect();
    match streams[..] {
        [one, other, ..] => fault(format!("{one} and {other} cannot both come from standard input")),
        _ => Ok(()),
    }
}

impl Input {
    pub fn read(name: &OsStr, kind: Kind) -> Result<Input, Stop> {
        let bytes = read(name, |mut from, size| reading::file(&mut from, kind, size))?;
        Ok(Input { bytes, kind })
    }

    /// The first bytes of an oracle, and whether there are more.
    pub fn first(name: &OsStr, most: usize) -> Result<(Input, bool), Stop> {
        let mut bytes = read(name, |mut from, _| reading::up_to(&mut from, most + 1))?;
        let more = bytes.len() > most;
        bytes.truncate(most);
        Ok((Input { bytes, kind: Kind::Oracle }, more))
    }

    /// What the core said of this file, and beside a refusal a word on what it looks like, or on what to do.
    pub fn judged<T>(&self, verdict: Result<T, Refused>) -> Result<T, Stop> {
        verdict.map_err(|refused| Stop::Refused(refused, self.note(refused)))
    }

    /// A word where it is another kind of file, or an oracle of an older edition.
    pub fn note(&self, refused: Refused) -> Option<&'static str> {
        let looks = |kind| looks_like(self, kind);
        match self.kind {
            Kind::Oracle if refused == Refused(CONTENTS) && looks(Kind::Oracle) => {
                Some("this is an oracle of an older edition: `jukesogbi build` builds it again from its network")
            }
            Kind::Oracle if looks(Kind::Network) => Some("this looks like a network: `jukesogbi build` makes an oracle of it"),
            Kind::Network if looks(Kind::Oracle) => Some("this looks like an oracle: the network that it is of is wanted"),
            Kind::Oracle if looks(Kind::Sheet) => Some("this looks like a day sheet, which is for the option `--sheet`"),
            Kind::Network if looks(Kind::Sheet) => Some("this looks like a day sheet, and no network"),
            Kind::Sheet if looks(Kind::Network) || looks(Kind::Oracle) => Some("this looks like a network or an oracle, and no day sheet"),
            Kind::Sheet if self.starts_with(b"closed ") || self.starts_with(b"delayed ") => {
                Some("this looks like the text of a day sheet: `jukesogbi sheet` makes a sheet of it")
            }
            _ => None,
        }
    }
}
