//! Standard output and standard error that fail, arguments that are no text, and memory that cannot be had: a message and a status, never a panic.

mod common;

use common::networks::Plan;
use common::program::{finish, touched, words, Folder, Ran};
use std::ffi::OsStr;
use std::fs::OpenOptions;
use std::io::Read;
use std::os::unix::ffi::OsStrExt;
use std::process::Stdio;

/// Every kind of command, with what it reads from standard input.
const CALLS: [(&str, &str); 24] = [
    ("build line.net 6 new", ""),
    ("build line.net 6 -", ""),
    ("audit line.oracle", ""),
    ("time line.oracle 0 2", ""),
    ("time line.oracle", "0 2\n0 1\n"),
    ("far line.oracle 0 2", ""),
    ("far line.oracle", "0 2\n"),
    ("list line.oracle 0", ""),
    ("way line.oracle 0 2", ""),
    ("way line.oracle", "0 2\n0 1\n"),
    ("block line.oracle 0,1 1,2", ""),
    ("wages line.oracle", "0 2\n1 1\n"),
    ("listing line.oracle", ""),
    ("sample 60 2 new", ""),
    ("sample 60 2 -", ""),
    ("draw line.oracle new", ""),
    ("draw line.oracle - 0 2", ""),
    ("demo", ""),
    ("bench 5 8", ""),
    ("help", ""),
    ("help time", ""),
    ("time --help", ""),
    ("version", ""),
    ("--version", ""),
];

fn full() -> Stdio {
    OpenOptions::new().write(true).open("/dev/full").unwrap().into()
}

/// A pipe that nobody reads any more.
fn closed() -> Stdio {
    let (reader, writer) = std::io::pipe().unwrap();
    drop(reader);
    writer.into()
}

fn run(f: &Folder, args: &str, input: &str, out: Option<Stdio>, err: Option<Stdio>) -> Ran {
    let mut command = f.command(words(args));
    out.map(|out| command.stdout(out));
    err.map(|err| command.stderr(err));
    finish(command.spawn().unwrap(), input.as_bytes())
}

// ---- Standard output ----

/// A standard output that is closed from the start is none.
#[test]
fn no_output_at_all() {
    let f = Folder::with_files("streams_none");
    for (args, input) in CALLS {
        f.write("input", input.as_bytes());
        let ran = f.shell(&format!("exec $J {args} < input >&-"));
        assert_eq!((ran.code, ran.err.as_str()), (2, "jukesogbi: cannot write standard output: it is closed\n"), "{args}");
    }
    // What only says on standard error what is wrong does so, and nothing that is there is taken for standard output.
    f.shell("exec $J time line.oracle x y >&-").is_wrong("`x` is no number");
    f.shell("exec $J time line.oracle 0 2 <&- 2>&-").says("16 2 far 1\n");
}

/// Nothing is said to be done where it was not written.
#[test]
fn output_that_cannot_be_written() {
    let f = Folder::with_files("streams_full");
    let text = "jukesogbi: cannot write standard output: No space left on device (os error 28)\n";
    for (args, input) in CALLS {
        let ran = run(&f, args, input, Some(full()), None);
        assert_eq!((ran.code, ran.err.as_str()), (2, text), "{args}");
    }
    // A list that is longer than what is kept back.
    f.run("sample 60 2 roads.net");
    f.run("build roads.net 8 roads.oracle");
    for (args, input) in [("listing roads.oracle", String::new()), ("time roads.oracle", "0 59\n".repeat(10_000))] {
        let ran = run(&f, args, &input, Some(full()), None);
        assert_eq!((ran.code, ran.err.as_str()), (2, text), "{args}");
    }
    // A refusal that cannot be written.
    let ran = run(&f, "audit line.net", "", Some(full()), None);
    assert_eq!((ran.code, ran.err.ends_with(text)), (2, true), "{}", ran.err);
    f.shell("$J build line.net 6 - > /dev/full").does(2, "", text);
}

/// Whoever closes a pipe has had enough lines. A file that did not get through is a failure.
#[test]
fn output_that_nobody_reads() {
    let f = Folder::with_files("streams_closed");
    for (args, input) in CALLS {
        let ran = run(&f, args, input, Some(closed()), None);
        if args.contains(" - ") || args.ends_with(" -") {
            let text = "jukesogbi: cannot write standard output: Broken pipe (os error 32)\n";
            assert_eq!((ran.code, ran.err.as_str()), (2, text), "{args}");
        } else {
            assert_eq!((ran.code, ran.err.as_str()), (0, ""), "{args}");
        }
    }
    f.run("sample 60 2 roads.net");
    f.run("build roads.net 8 roads.oracle");
    f.shell("$J listing roads.oracle | head -n 2").says("places 60 transit 40\n0 1 35 local\n");
    f.shell("yes 0 59 | $J time roads.oracle | head -n 2").says("869 14 far 24\n869 14 far 24\n");
    // A refusal stays one.
    let ran = run(&f, "audit line.net", "", Some(closed()), None);
    assert_eq!((ran.code, ran.err.lines().count()), (1, 2), "{}", ran.err);
}

/// Lines in order: what was answered before a failure of the input is written.
#[test]
fn input_that_cannot_be_read() {
    let f = Folder::with_files("streams_input");
    f.shell("$J time line.oracle < .").does(2, "", "jukesogbi: cannot read standard input: Is a directory (os error 21)\n");
    f.shell("$J wages line.oracle < .").does(2, "", "jukesogbi: cannot read standard input: Is a directory (os error 21)\n");
    f.shell("$J audit - < .").does(2, "", "jukesogbi: cannot read standard input: Is a directory (os error 21)\n");
}

// ---- Standard error ----

/// Messages that cannot be written change neither the status nor the output.
#[test]
fn messages_that_cannot_be_written() {
    let f = Folder::with_files("streams_messages");
    for err in [full as fn() -> Stdio, closed] {
        for (args, input) in CALLS {
            // The benchmark's numbers differ from run to run.
            let (with, without) = (run(&f, args, input, None, None), run(&f, args, input, None, Some(err())));
            assert_eq!(with.code, without.code, "{args}");
            assert!(with.out == without.out || args.starts_with("bench"), "{args}");
        }
        for (args, input, code, out) in [
            ("fly", "", 2, ""),
            ("", "", 2, ""),
            ("audit none", "", 2, ""),
            ("audit line.net", "", 1, "refused 1\n"),
            ("time line.net", "", 1, "refused 1\n"),
            ("listing line.net", "", 1, "refused 1\n"),
            ("time line.oracle 0 x", "", 2, ""),
            ("time line.oracle", "0 3\nx\n0 1\n", 2, "refused 12\nwrong\n7 1 local 0\n"),
            ("way without.oracle 0 4", "", 0, "\n"),
            ("build line.net 6 /dev/full", "", 2, ""),
            ("build line.net 6 new --words 99999999999999", "", 2, ""),
        ] {
            let ran = run(&f, args, input, None, Some(err()));
            assert_eq!((ran.code, ran.text().as_str()), (code, out), "{args}");
        }
        let both = run(&f, "help", "", Some(full()), Some(err()));
        assert_eq!(both.code, 2);
    }
}

// ---- Arguments that are no text ----

#[test]
fn arguments_that_are_no_text() {
    let f = Folder::with_files("streams_arguments");
    let odd = OsStr::from_bytes(b"\xff\xfe");
    let run = |args: &[&OsStr]| finish(f.command(args).spawn().unwrap(), b"");
    // Each argument of each call in turn: a file that is not there, or what is no number, or a new file.
    for (args, _) in CALLS {
        let args: Vec<&OsStr> = args.split(' ').map(OsStr::new).collect();
        for k in 0..args.len() {
            let mut args = args.clone();
            args[k] = odd;
            let ran = run(&args);
            let asked = args.contains(&OsStr::new("--version")) || k > 0 && args.contains(&OsStr::new("--help"));
            let wrote = matches!(args[0].to_str(), Some("build" | "sample" | "draw")) && f.0.join(odd).exists();
            assert_eq!(ran.code, if asked || wrote { 0 } else { 2 }, "{args:?}: {}", ran.err);
            let _ = std::fs::remove_file(f.0.join(odd));
        }
    }
    for k in 0..2 {
        let mut args = ["audit", "line.oracle", "--words", "24"].map(OsStr::new);
        args[2 + k] = odd;
        assert_eq!(run(&args).code, 2);
    }
    // As names of files they are as good as any others.
    std::fs::write(f.0.join(odd), f.read("line.net")).unwrap();
    let name = OsStr::from_bytes(b"oracle \x80");
    run(&[OsStr::new("build"), odd, OsStr::new("6"), name]).says("built 149 bytes, 1 transit\n");
    run(&[OsStr::new("time"), name, OsStr::new("0"), OsStr::new("2")]).says("16 2 far 1\n");
    run(&[OsStr::new("listing"), name]).says("places 3 transit 1\n0 1 7 local\n0 2 16 far\n1 2 9 local\n");
    run(&[OsStr::new("audit"), odd]).is_refused(1);
    run(&[OsStr::new("draw"), name, OsStr::from_bytes(b"\xf0.svg")]).says("drawn 3 places\n");
    assert!(f.0.join(OsStr::from_bytes(b"\xf0.svg")).exists());
}

// ---- Memory ----

/// Words and bytes that no machine has.
#[test]
fn memory_that_no_machine_has() {
    let f = Folder::with_files("streams_no_memory");
    for count in ["99999999999999", "9223372036854775807", "18446744073709551615"] {
        let words = format!("jukesogbi: there is no memory for {count} working words (--words K lends K)\n");
        for call in ["build line.net 6 new", "audit line.oracle", "time line.oracle 0 1", "time line.oracle", "way line.oracle 0 1", "way line.oracle",
            "block line.oracle 0 1", "wages line.oracle", "draw line.oracle new 0 1"]
        {
            f.run(&format!("{call} --words {count}")).does(2, "", &words);
        }
    }
    for count in ["999999999999999", "18446744073709551615"] {
        let room = format!("jukesogbi: there is no memory for {count} bytes of output (--room B lends B)\n");
        for call in ["build line.net 6 new", "way line.oracle 0 1", "way line.oracle", "wages line.oracle", "draw line.oracle new 0 1"] {
            f.run(&format!("{call} --room {count}")).does(2, "", &room);
        }
    }
    assert!(!f.has("new"));
}

/// The largest network: its oracle could be large, and is not under 1, where nothing is far.
fn most_roads() -> Vec<u8> {
    let places = (0..4096).map(|i| (i % 64, i / 64)).collect();
    Plan { places, roads: (0..16_384).map(|i| (i % 4095, 4095, 5)).collect() }.bytes()
}

/// With less and less memory a command does its work, or says that there is none.
#[test]
fn little_memory() {
    let f = Folder::with_files("streams_little_memory");
    f.write("net", &most_roads());
    assert_eq!(f.run("build net 1 oracle").code, 0);
    // What the program itself takes before it begins.
    let fits = |kilobytes: &usize| f.shell(&format!("(ulimit -v {kilobytes}; $J version) > said 2>&1 && cat said; true")).text().starts_with("jukesogbi 0");
    let least = (1_000..50_000).step_by(100).find(fits).unwrap() + 100;
    let (mut done, mut failed) = (0, 0);
    for kilobytes in (least..least + 1_500).step_by(100).chain([100_000, 200_000]) {
        for (call, good) in [
            ("build net 1 new", "built 188483 bytes, 0 transit\n"),
            ("audit oracle", "accepted\n"),
            ("time oracle 0 1", "10 2 local 0\n"),
            ("list oracle 4095", ""),
            ("draw oracle new.svg", "drawn 4096 places\n"),
            ("version", concat!("jukesogbi ", env!("CARGO_PKG_VERSION"), "\n")),
        ] {
            let ran = f.shell(&format!("ulimit -v {kilobytes}; exec $J {call}"));
            match ran.code {
                0 if ran.text() == good => done += 1,
                2 if ran.text().is_empty() && ran.err.contains("memory") => failed += 1,
                code => panic!("{call} with {kilobytes} kB: {code}, {}, {}", ran.text(), ran.err),
            }
        }
    }
    assert!(done > 20 && failed > 5, "{done} done, {failed} failed");
    let ran = f.shell("ulimit -v 50000; exec $J build net 1 other");
    ran.does(2, "", "jukesogbi: there is no memory for 235077728 bytes of output (--room B lends B)\n");
    // With as much room as is needed it fits.
    f.shell("ulimit -v 50000; exec $J build net 1 other --room 190000").says("built 188483 bytes, 0 transit\n");
    assert_eq!(f.names().iter().filter(|name| name.starts_with('.')).count(), 0);
}

/// Starts a build that writes to a pipe, and asks for the memory that it has touched when it begins to write.
fn touched_by_build(f: &Folder, args: &str) -> usize {
    let mut child = f.command(words(args)).spawn().unwrap();
    let mut out = child.stdout.take().unwrap();
    out.read_exact(&mut [0]).unwrap();
    let kilobytes = touched(&child);
    out.read_to_end(&mut Vec::new()).unwrap();
    assert!(child.wait().unwrap().success());
    kilobytes
}

/// What is lent and not touched costs nothing, by default (for the most places that there can be) and by an option.
#[test]
fn untouched_memory_costs_nothing() {
    let f = Folder::with_files("streams_untouched");
    f.write("net", &most_roads());
    let least = touched_by_build(&f, "build net 1 - --room 230000");
    for more in ["", "--room 1000000000", "--words 250000000", "--room 1000000000 --words 250000000"] {
        let kilobytes = touched_by_build(&f, &format!("build net 1 - {more}"));
        assert!(kilobytes < least + 2_000, "{kilobytes} kB with {more}, {least} kB with as much as is needed");
    }
    assert!(least < 20_000, "{least} kB");
}
