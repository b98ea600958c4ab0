//! The arguments of a command: words, options, and the memory that these lend.

use crate::input::Input;
use crate::output::Output;
use crate::stop::{fault, slip, Done, Stop};
use jukesogbi::files::{self, Kind};
use jukesogbi::memory;
use std::ffi::{OsStr, OsString};

/// How many words and bytes to lend where not as many as are needed.
#[derive(Clone, Copy, Default)]
pub struct Lend {
    pub words: Option<usize>,
    pub room: Option<usize>,
}

impl Lend {
    /// Working words for calls over this file.
    pub fn words(&self, file: &[u8]) -> Result<Vec<u32>, Stop> {
        let count = self.words.unwrap_or_else(|| files::words_needed(file));
        memory::zeroed(count).map_or_else(|| fault(format!("there is no memory for {count} working words (--words K lends K)")), Ok)
    }

    /// Output, of which so many bytes are enough.
    pub fn room(&self, enough: usize) -> Result<Vec<u8>, Stop> {
        let count = self.room.unwrap_or(enough);
        memory::zeroed(count).map_or_else(|| fault(format!("there is no memory for {count} bytes of output (--room B lends B)")), Ok)
    }
}

/// The arguments as they were given, before it is known which command they are for.
#[derive(Default)]
pub struct Arguments {
    pub words: Vec<OsString>,
    pub lend: Lend,
    pub sheet: Option<OsString>,
    pub roads: bool,
    pub help: bool,
    pub version: bool,
    /// The options used.
    pub options: Vec<&'static str>,
    /// What is wrong with an option.
    pub wrong: Option<String>,
}

impl Arguments {
    pub fn of(mut args: impl Iterator<Item = OsString>) -> Arguments {
        let mut given = Arguments::default();
        while let Some(word) = args.next() {
            match word.to_str() {
                Some("--") => given.words.extend(args.by_ref()),
                Some("--help" | "-h") => given.help = true,
                Some("--version" | "-V") => given.version = true,
                Some(option) if option.starts_with("--") => given.option(option, &mut args),
                _ => given.words.push(word),
            }
        }
        given
    }

    /// `--words K` or `--words=K`, and so for the others; `--roads` has no value.
    fn option(&mut self, text: &str, rest: &mut impl Iterator<Item = OsString>) {
        let (name, value) = text.split_once('=').map_or((text, None), |(name, value)| (name, Some(OsString::from(value))));
        let Some(name) = OPTIONS.into_iter().find(|&option| option == name) else {
            self.wrong.get_or_insert(format!("there is no option `{name}`"));
            return;
        };
        self.options.push(name);
        if name == ROADS {
            self.roads = true;
            if value.is_some() {
                self.wrong.get_or_insert(format!("`{name}` has no value"));
            }
            return;
        }
        let value = value.or_else(|| rest.next());
        let count = || value.as_ref()?.to_str()?.parse().ok();
        let understood = match name {
            "--words" => set(&mut self.lend.words, count()),
            "--room" => set(&mut self.lend.room, count()),
            _ => set(&mut self.sheet, value),
        };
        if !understood {
            let wanted = if name == SHEET { "a file".to_string() } else { format!("a number from 0 to {}", usize::MAX) };
            self.wrong.get_or_insert(format!("`{name}` wants {wanted} after it"));
        }
    }
}

const SHEET: &str = "--sheet";
const ROADS: &str = "--roads";
const OPTIONS: [&str; 4] = ["--words", "--room", SHEET, ROADS];

/// Whether there is something to set it to.
fn set<T>(place: &mut Option<T>, value: Option<T>) -> bool {
    *place = value;
    place.is_some()
}

/// A command as it was called, with as many words as it takes.
pub struct Call<'a> {
    pub words: &'a [OsString],
    pub lend: Lend,
    /// The name of the day sheet.
    pub sheet: Option<&'a OsStr>,
    /// Whether numbers of roads are wanted, and not seconds.
    pub roads: bool,
    pub out: &'a mut Output,
}

impl Call<'_> {
    pub fn number(&self, k: usize) -> Result<u32, Stop> {
        number(&self.words[k].to_string_lossy())
    }

    /// The number at k, if there is one.
    pub fn number_if(&self, k: usize) -> Result<Option<u32>, Stop> {
        if k < self.words.len() { self.number(k).map(Some) } else { Ok(None) }
    }

    /// The two numbers at k, if there are any.
    pub fn pair_if(&self, k: usize) -> Result<Option<(u32, u32)>, Stop> {
        if k < self.words.len() { Ok(Some((self.number(k)?, self.number(k + 1)?))) } else { Ok(None) }
    }

    /// Numbers parted by commas. The empty text names none, which the core may then refuse.
    pub fn numbers(&self, k: usize) -> Result<Vec<u32>, Stop> {
        let text = self.words[k].to_string_lossy();
        if text.is_empty() {
            return Ok(Vec::new());
        }
        text.split(',').map(number).collect()
    }

    pub fn network(&self, k: usize) -> Result<Input, Stop> {
        Input::read(&self.words[k], Kind::Network)
    }

    pub fn oracle(&self, k: usize) -> Result<Input, Stop> {
        Input::read(&self.words[k], Kind::Oracle)
    }

    pub fn deliver(&mut self, k: usize, bytes: &[u8], report: &str) -> Done {
        self.out.deliver(&self.words[k], bytes, report)
    }
}

fn number(text: &str) -> Result<u32, Stop> {
    text.parse().or_else(|_| slip(format!("`{}` is no number from 0 to {}", text.escape_debug(), u32::MAX)))
}
