//! All commands, each with its usage, its help and its function.

use crate::args::{Arguments, Call};
use crate::output::Output;
use crate::stop::{slip, Done, Stop};
use crate::texts::{COMPARED, LEAST, LEFT_OUT, LEGS, LINES, PAIRS, RENUMBERED, UNDER, WRITES};
use crate::{bench, compare, convert, demo, making, questions, sheets, wages};
use std::ffi::{OsStr, OsString};
use std::fmt::Write;

struct Command {
    name: &'static str,
    /// Its arguments; those in brackets may be left out.
    takes: &'static str,
    options: &'static [&'static str],
    /// What it does, in a line.
    does: &'static str,
    /// What else is to be known.
    more: &'static [&'static str],
    run: fn(&mut Call) -> Done,
}

const SHEET: &str = "--sheet SHEET";
const WORDS: &str = "--words K";
const ROOM: &str = "--room B";
const ROADS: &str = "--roads";

const COMMANDS: &[Command] = &[
    Command {
        name: "build",
        takes: "NETWORK G ORACLE",
        options: &[WORDS, ROOM],
        does: "build the oracle of a network under a grid of G x G cells",
        more: &[WRITES],
        run: making::build,
    },
    Command {
        name: "audit",
        takes: "ORACLE",
        options: &[WORDS],
        does: "whether an oracle is the one that building gives",
        more: &[],
        run: questions::audit,
    },
    Command {
        name: "time",
        takes: "ORACLE [S T]",
        options: &[SHEET, WORDS],
        does: "the time from place S to place T: seconds and roads (`- -` for none), far or local, pairs tried",
        more: &[LEAST, UNDER, PAIRS],
        run: questions::time,
    },
    Command {
        name: "far",
        takes: "ORACLE [S T]",
        options: &[WORDS],
        does: "the time of a far pair, from lists and table alone, in the form of `time`",
        more: &["It takes no working words: any number of them is enough.", PAIRS],
        run: questions::far,
    },
    Command {
        name: "list",
        takes: "ORACLE U",
        options: &[],
        does: "the access list of place U: a line for each entry, its index, seconds and roads (`- -` for none)",
        more: &[],
        run: questions::list,
    },
    Command {
        name: "way",
        takes: "ORACLE [S T]",
        options: &[SHEET, WORDS, ROOM],
        does: "the places of the way from S to T, on one line, which is empty where there is none",
        more: &[UNDER, PAIRS],
        run: questions::way,
    },
    Command {
        name: "block",
        takes: "ORACLE S,S,.. T,T,..",
        options: &[ROADS, WORDS],
        does: "all times from up to 12 places S to up to 12 places T, a line for each S",
        more: &["It prints their seconds, and with --roads their numbers of roads; `-` for none."],
        run: questions::block,
    },
    Command {
        name: "wages",
        takes: "ORACLE",
        options: &[WORDS, ROOM],
        does: "the times of up to 1000 legs `S T` from standard input, one a line, and their total",
        more: &[LEGS],
        run: wages::run,
    },
    Command {
        name: "listing",
        takes: "ORACLE",
        options: &[],
        does: "all pairs with S below T, as document 01's listing program prints them",
        more: &[
            "Like that program it reads the first 28672 bytes of an oracle that is longer. What is cut off so is refused, by rule 2.",
            "`time` without S T answers any list of pairs from an oracle of any size.",
        ],
        run: questions::list_all,
    },
    Command {
        name: "compare",
        takes: "ORACLE ORACLE",
        options: &[],
        does: "how many pairs of places are slower, as quick or quicker in the second oracle, and the largest rise",
        more: &[COMPARED],
        run: compare::run,
    },
    Command {
        name: "sample",
        takes: "N SEED NETWORK",
        options: &[],
        does: "write a road-like network of N places",
        more: &[WRITES],
        run: making::write_sample,
    },
    Command {
        name: "draw",
        takes: "ORACLE PICTURE.svg [S T]",
        options: &[SHEET, WORDS, ROOM],
        does: "draw the network, its grid and transit places, and the way from S to T",
        more: &["With --sheet it shows the roads that the day sheet closes and delays, and the way under it.", WRITES],
        run: making::draw,
    },
    Command {
        name: "sheet",
        takes: "TEXT SHEET",
        options: &[],
        does: "make a day sheet from lines `closed ROAD` and `delayed ROAD SECONDS`",
        more: &[LINES, WRITES],
        run: sheets::make,
    },
    Command {
        name: "sheet-text",
        takes: "SHEET",
        options: &[],
        does: "print a day sheet, each line as `sheet` reads it",
        more: &["The core says whether it is a sheet: one that breaks rule 18 is refused. Rules 19 and 20 take an oracle, and are not looked at."],
        run: sheets::print,
    },
    Command {
        name: "convert",
        takes: "NETWORK NEW",
        options: &[ROOM],
        does: "leave the closed roads out of an old network",
        more: &[LEFT_OUT, WRITES],
        run: convert::network,
    },
    Command {
        name: "convert-sheet",
        takes: "NETWORK SHEET NEW",
        options: &[ROOM],
        does: "renumber a day sheet of an old network for the converted one",
        more: &[RENUMBERED, WRITES],
        run: convert::sheet,
    },
    Command { name: "demo", takes: "", options: &[], does: "try all of this on a sample", more: &["It writes demo.svg."], run: demo::run },
    Command {
        name: "bench",
        takes: "[N [G]]",
        options: &[],
        does: "measure the core beside plain Rust, with up to N places (4096)",
        more: &[
            "Sizes are 256, 1024 and 4096 as far as N, or N alone where it is below 256; grids are 16, 32 and 64.",
            "Networks with 1.4 to 4 roads a place in random order have 1024 and 2048 places as far as N, or N alone where it is below 1024; the grid is 32.",
            "With N 4096 one more has 4096 places and 16384 roads, the most there can be; its grid is 64.",
            "With G it measures N places under a grid of G x G cells alone.",
        ],
        run: bench::run,
    },
    Command { name: "help", takes: "[COMMAND]", options: &[], does: "this page, or the help of a command", more: &[], run: help },
    Command { name: "version", takes: "", options: &[], does: "which version this is", more: &[], run: version },
];

/// Where no command is named.
const USAGE: &str = "COMMAND, where `-` stands for standard input or output";

/// Finds the command and runs it. A slip is answered by its cause and that command's usage.
pub fn run(args: impl Iterator<Item = OsString>, out: &mut Output) -> Done {
    let given = Arguments::of(args);
    if given.version {
        return out.line(VERSION);
    }
    if given.help && given.words.is_empty() {
        return out.line(page());
    }
    let command = named(&given).map_err(|stop| stop.with_usage(USAGE))?;
    if given.help {
        return out.line(command.help());
    }
    let call = Call { words: &given.words[1..], lend: given.lend, sheet: given.sheet.as_deref(), roads: given.roads, out };
    command.call(&given, call).map_err(|stop| stop.with_usage(&command.usage()))
}

/// The command, which is the first word. An option that is none may have left another word there, and is told instead.
fn named(given: &Arguments) -> Result<&'static Command, Stop> {
    let found = match given.words.first() {
        Some(name) => find(name),
        None => slip("there is no command: `jukesogbi help` lists them"),
    };
    match &given.wrong {
        Some(wrong) if found.is_err() => slip(wrong),
        _ => found,
    }
}

fn find(name: &OsStr) -> Result<&'static Command, Stop> {
    let found = COMMANDS.iter().find(|command| name == command.name);
    found.map_or_else(|| slip(format!("there is no command `{}`: `jukesogbi help` lists them", name.display())), Ok)
}

impl Command {
    /// Its name and arguments.
    fn head(&self) -> String {
        format!("{} {}", self.name, self.takes).trim_end().to_string()
    }

    fn usage(&self) -> String {
        let options: String = self.options.iter().map(|option| format!(" [{option}]")).collect();
        self.head() + &options
    }

    fn help(&self) -> String {
        let mut text = format!("usage: jukesogbi {}\n{}", self.usage(), self.does);
        self.more.iter().for_each(|line| text.extend(["\n", line]));
        text
    }

    /// How many words it takes: all of them, or those before one of the brackets.
    fn counts(&self) -> Vec<usize> {
        let before = |end: usize| self.takes[..end].split_whitespace().count();
        let brackets = self.takes.match_indices('[').map(|(at, _)| before(at));
        brackets.chain([before(self.takes.len())]).collect()
    }

    /// Runs it if what is given is what it takes.
    fn call(&self, given: &Arguments, mut call: Call) -> Done {
        if let Some(wrong) = &given.wrong {
            return slip(wrong);
        }
        let strange = given.options.iter().find(|&&option| !self.options.iter().any(|own| own.starts_with(option)));
        if let Some(option) = strange {
            return slip(format!("`{}` has no option `{option}`", self.name));
        }
        let (counts, count) = (self.counts(), call.words.len());
        if !counts.contains(&count) {
            let counts: Vec<String> = counts.iter().map(usize::to_string).collect();
            return slip(format!("wrong use of `{}`: it takes {} arguments, not {count}", self.name, counts.join(" or ")));
        }
        (self.run)(&mut call)
    }
}

fn help(call: &mut Call) -> Done {
    match call.words.first() {
        Some(name) => call.out.line(find(name)?.help()),
        None => call.out.line(page()),
    }
}

fn page() -> String {
    let wide = COMMANDS.iter().map(|command| command.head().len()).max().unwrap_or(0);
    let mut text = format!("usage: jukesogbi {USAGE}:\n");
    for command in COMMANDS {
        let _ = writeln!(text, "  {:wide$}  {}", command.head(), command.does);
    }
    text + "`jukesogbi COMMAND --help` says more of each.\n\
        time, far and way without S T answer pairs `S T` from standard input, one a line; wages answers legs so, all at once.\n\
        options: --sheet SHEET answers under a day sheet; --roads has a block print roads, not seconds; --words K lends K working words, --room B\n\
        lends B bytes of output, where the default is as many as are needed; -- ends the options.\n\
        status: 0 done; 1 refused, as `refused N`, with the rule on standard error; 2 wrong use, or a file, a stream or memory that fails."
}

const VERSION: &str = concat!("jukesogbi ", env!("CARGO_PKG_VERSION"));

fn version(call: &mut Call) -> Done {
    call.out.line(VERSION)
}
