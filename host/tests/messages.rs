//! What the program says of itself and of slips, and what it says beside refusals and answers.

mod common;

use common::program::{Folder, Ran};
use std::path::Path;

const COMMANDS: [&str; 20] = [
    "build", "audit", "time", "far", "list", "way", "block", "wages", "listing", "compare", "sample", "draw", "sheet", "sheet-text", "convert",
    "convert-sheet", "demo", "bench", "help", "version",
];

/// The usage line of a command, as its help has it.
fn usage(f: &Folder, command: &str) -> String {
    f.run(&format!("help {command}")).text().lines().next().unwrap().to_string()
}

/// Exit 2 with nothing on standard output, and on standard error this cause and the usage of the command, and no more.
fn is_slip(f: &Folder, ran: Ran, cause: &str, command: &str) {
    ran.does(2, "", &format!("jukesogbi: {cause}\n{}\n", usage(f, command)));
}

// ---- Help and version ----

#[test]
fn the_version() {
    let f = Folder::new("messages_version");
    for word in ["version", "--version", "-V", "time --version"] {
        f.run(word).says(concat!("jukesogbi ", env!("CARGO_PKG_VERSION"), "\n"));
    }
}

#[test]
fn help_lists_all_commands() {
    let f = Folder::new("messages_help");
    let page = f.run("help");
    assert_eq!((page.code, page.err.as_str()), (0, ""));
    assert!(page.text().starts_with("usage: jukesogbi COMMAND"));
    for command in COMMANDS {
        assert_eq!(page.text().matches(&format!("\n  {command} ")).count(), 1, "{command}");
    }
    for part in ["--sheet SHEET", "--roads", "--words K", "--room B", "status: 0 done; 1 refused", "COMMAND --help"] {
        assert!(page.text().contains(part), "the page has no {part}");
    }
    for word in ["--help", "-h"] {
        f.run(word).says(&page.text());
    }
}

#[test]
fn help_of_each_command() {
    let f = Folder::new("messages_help_each");
    let page = f.run("help").text();
    for command in COMMANDS {
        let help = f.run(&format!("help {command}")).text();
        assert!(help.starts_with(&format!("usage: jukesogbi {command}")) && help.lines().count() >= 2, "{help}");
        for call in [format!("{command} --help"), format!("{command} -h"), format!("--help {command}"), format!("{command} too many words --help")] {
            f.run(&call).says(&help);
        }
        // The line of the page is the second of the help, and its words are those of the usage without the options.
        let does = help.lines().nth(1).unwrap();
        let line = page.lines().find(|line| line.ends_with(&format!("  {does}"))).unwrap_or_else(|| panic!("{does} is not on the page"));
        let head = line.strip_suffix(does).unwrap().trim();
        let usage = help.lines().next().unwrap().strip_prefix("usage: jukesogbi ").unwrap();
        assert_eq!(usage.split(" [--").next().unwrap(), head);
    }
    is_slip_without_command(f.run("help fly"), "there is no command `fly`: `jukesogbi help` lists them", &usage(&f, "help"));
}

fn is_slip_without_command(ran: Ran, cause: &str, usage: &str) {
    ran.does(2, "", &format!("jukesogbi: {cause}\n{usage}\n"));
}

// ---- Slips ----

#[test]
fn no_such_command_or_option() {
    let f = Folder::with_files("messages_none");
    let none = "usage: jukesogbi COMMAND, where `-` stands for standard input or output";
    is_slip_without_command(f.run(""), "there is no command: `jukesogbi help` lists them", none);
    is_slip_without_command(f.run("fly"), "there is no command `fly`: `jukesogbi help` lists them", none);
    is_slip_without_command(f.run("''"), "there is no command ``: `jukesogbi help` lists them", none);
    is_slip_without_command(f.run("--fly"), "there is no option `--fly`", none);
    is_slip(&f, f.run("time line.oracle 0 1 --fly"), "there is no option `--fly`", "time");
    is_slip_without_command(f.run("--wrods 5 audit line.oracle"), "there is no option `--wrods`", none);
    is_slip(&f, f.run("audit line.oracle --room 5"), "`audit` has no option `--room`", "audit");
    is_slip(&f, f.run("sample 5 1 new --words=5"), "`sample` has no option `--words`", "sample");
    is_slip(&f, f.run("convert-sheet line.net day new --words 24"), "`convert-sheet` has no option `--words`", "convert-sheet");
    for command in ["time line.oracle 0 2", "far line.oracle 0 2", "list line.oracle 0", "way line.oracle 0 2", "wages line.oracle", "listing line.oracle"] {
        let name = command.split(' ').next().unwrap();
        is_slip(&f, f.run(&format!("{command} --roads")), &format!("`{name}` has no option `--roads`"), name);
    }
    is_slip(&f, f.run("block line.oracle 0 2 --roads=5"), "`--roads` has no value", "block");
    for command in
        ["far line.oracle 0 2", "block line.oracle 0 2", "wages line.oracle", "audit line.oracle", "sheet-text line.oracle", "convert line.net new"]
    {
        let name = command.split(' ').next().unwrap();
        is_slip(&f, f.run(&format!("{command} --sheet day")), &format!("`{name}` has no option `--sheet`"), name);
    }
    assert!(!f.has("new"));
    // Behind `--` nothing is an option, and a file may have any name.
    f.run("build line.net 6 -- --words").says("built 149 bytes, 1 transit\n");
    f.run("time -- --words 0 2").says("16 2 far 1\n");
    f.run("-- time line.oracle 0 2").says("16 2 far 1\n");
}

#[test]
fn a_wrong_number_of_arguments() {
    let f = Folder::with_files("messages_count");
    for (command, takes, wrong) in [
        ("build", "3", "| line.net 6| line.net 6 new more"),
        ("audit", "1", "| line.oracle more"),
        ("time", "1 or 3", "| line.oracle 0| line.oracle 0 1 2"),
        ("far", "1 or 3", "| line.oracle 0| line.oracle 0 1 2"),
        ("list", "2", "| line.oracle| line.oracle 0 1"),
        ("way", "1 or 3", "| line.oracle 1| line.oracle 0 1 2"),
        ("block", "3", "| line.oracle| line.oracle 0| line.oracle 0 1 2"),
        ("wages", "1", "| line.oracle 0| line.oracle 0 1"),
        ("listing", "1", "| line.oracle more"),
        ("compare", "2", "| line.oracle| line.oracle line.oracle more"),
        ("sample", "3", "| 5 1| 5 1 new more"),
        ("draw", "2 or 4", "| line.oracle| line.oracle p.svg 0| line.oracle p.svg 0 1 2"),
        ("sheet", "2", "| day.txt| day.txt day more"),
        ("sheet-text", "1", "| day more"),
        ("convert", "2", "| line.net| line.net new more"),
        ("convert-sheet", "3", "| line.net| line.net day| line.net day new more"),
        ("demo", "0", " more"),
        ("bench", "0 or 1 or 2", " 1 2 3"),
        ("help", "0 or 1", " time far"),
        ("version", "0", " more"),
    ] {
        for args in wrong.split('|') {
            let count = args.split_whitespace().count();
            is_slip(&f, f.run(&format!("{command}{args}")), &format!("wrong use of `{command}`: it takes {takes} arguments, not {count}"), command);
        }
    }
    assert!(!f.has("new") && !f.has("p.svg"));
}

#[test]
fn what_is_no_number() {
    let f = Folder::with_files("messages_number");
    // The files need not be there: slips come first.
    for (wrong, text) in [
        ("build line.net six new", "six"), ("build line.net -6 new", "-6"), ("build none 4294967296 new", "4294967296"), ("time line.oracle a 0", "a"),
        ("time none 0 1.5", "1.5"), ("far line.oracle 0 x", "x"), ("list line.oracle u", "u"), ("way line.oracle 0 -1", "-1"), ("block none a 0", "a"),
        ("block line.oracle 0 1,b", "b"), ("block line.oracle 0,,1 0", ""), ("block line.oracle 0 1,", ""), ("block line.oracle , 0", ""),
        ("block line.oracle 0;1 2", "0;1"), ("block line.oracle 0 4294967296", "4294967296"), ("sample n 1 net", "n"), ("sample 5 s net", "s"),
        ("draw line.oracle p.svg 0 t", "t"), ("draw line.oracle p.svg '' 0", ""), ("bench many", "many"), ("bench 1 many", "many"),
    ] {
        let command = wrong.split(' ').next().unwrap();
        is_slip(&f, f.run(wrong), &format!("`{text}` is no number from 0 to 4294967295"), command);
    }
    let wants = |name: &str| format!("`{name}` wants a number from 0 to 18446744073709551615 after it");
    is_slip(&f, f.run("build line.net 6 new --words"), &wants("--words"), "build");
    is_slip(&f, f.run("build line.net 6 new --room many"), &wants("--room"), "build");
    is_slip(&f, f.run("--words -1 audit line.oracle"), &wants("--words"), "audit");
    is_slip(&f, f.run("way line.oracle --room= 0 1"), &wants("--room"), "way");
    is_slip(&f, f.run("time line.oracle 0 1 --words 18446744073709551616"), &wants("--words"), "time");
    is_slip(&f, f.run("time line.oracle 0 1 --sheet"), "`--sheet` wants a file after it", "time");
    for (wrong, cause) in [
        ("sample 0 1 net", "a network has 1 to 4096 places"),
        ("sample 4097 1 net", "a network has 1 to 4096 places"),
        ("bench 0", "a network has 1 to 4096 places"),
        ("bench 4097 16", "a network has 1 to 4096 places"),
        ("bench 30 0", "a grid has 1 to 64 cells a side"),
        ("bench 30 65", "a grid has 1 to 64 cells a side"),
    ] {
        is_slip(&f, f.run(wrong), cause, wrong.split(' ').next().unwrap());
    }
    assert!(!f.has("new") && !f.has("net") && !f.has("p.svg"));
}

// ---- Beside refusals and answers ----

#[test]
fn the_other_kind_of_file() {
    let f = Folder::with_files("messages_kind");
    f.write("none", b"\x01\x05 a text, and no file of either kind");
    let rule = "rule 1: fewer than 2 bytes, a wrong edition, a wrong entry count or an incomplete contents\n";
    let network = format!("{rule}this looks like a network: `jukesogbi build` makes an oracle of it\n");
    for call in [
        "audit line.net", "time line.net 0 1", "time line.net", "far line.net 0 1", "far line.net", "list line.net 0", "way line.net 0 1", "way line.net",
        "block line.net 0 1", "wages line.net", "listing line.net", "draw line.net p.svg", "draw line.net p.svg 0 1",
    ] {
        f.run(call).does(1, "refused 1\n", &network);
    }
    let oracle = format!("{rule}this looks like an oracle: the network that it is of is wanted\n");
    for call in ["build line.oracle 6 new", "convert line.oracle new", "convert-sheet line.oracle none new"] {
        f.run_with(call, b"").does(1, "refused 1\n", &oracle);
    }
    f.run_with("build - 6 new", &f.read("line.oracle")).does(1, "refused 1\n", &oracle);
    // What looks like neither is refused without a word on it.
    for call in ["build none 6 new", "audit none", "convert none new", "convert-sheet none none new"] {
        f.run(call).does(1, "refused 1\n", rule);
    }
    assert!(!f.has("new") && !f.has("p.svg"));
}

#[test]
fn no_way() {
    let f = Folder::with_files("messages_no_way");
    f.run("way without.oracle 0 4").does(0, "\n", "no way leads from 0 to 4\n");
    f.run_with("way without.oracle", b"0 1\n4 0\n\n0 4\n").does(0, "0 1\n\n\n", "line 2: no way leads from 4 to 0\nline 4: no way leads from 0 to 4\n");
    f.run("draw without.oracle p.svg 0 4").does(0, "drawn 5 places\n", "no way leads from 0 to 4\n");
    let ran = f.run("draw without.oracle - 0 4");
    assert_eq!((ran.code, ran.out, ran.err.as_str()), (0, f.read("p.svg"), "no way leads from 0 to 4\ndrawn 5 places\n"));
    f.run("draw without.oracle all.svg").says("drawn 5 places\n");
}

#[test]
fn files_that_cannot_be_read() {
    let f = Folder::with_files("messages_unread");
    for command in [
        "build none 6 new", "audit none", "time none 0 1", "time none", "far none 0 1", "list none 0", "way none 0 1", "block none 0 1", "wages none",
        "listing none", "draw none p.svg", "convert none new", "convert-sheet none line.net new", "convert-sheet line.net none new",
    ] {
        f.run(command).does(2, "", "jukesogbi: cannot read none: No such file or directory (os error 2)\n");
    }
    // The folder itself is no file.
    f.run("audit .").does(2, "", "jukesogbi: cannot read .: Is a directory (os error 21)\n");
    assert!(!f.has("new") && !f.has("p.svg"));
}

// ---- The listing ----

/// The inputs and outputs stored with the listing program of document 01, and an oracle at both sides of what it reads.
#[test]
fn the_listing_is_that_of_the_listing_program() {
    let f = Folder::new("messages_listing");
    let crates = Path::new(env!("CARGO_MANIFEST_DIR")).parent().unwrap().join("crates");
    for name in ["listing", "listing_fork", "listing_refused", "listing_none", "listing_long"] {
        let stored = |file: &str| std::fs::read(crates.join(name).join(file)).unwrap();
        f.write("oracle", &stored("stdin"));
        for ran in [f.run("listing oracle"), f.run_with("listing -", &stored("stdin"))] {
            let refused = stored("stdout").starts_with(b"refused");
            assert_eq!((ran.code, ran.text().as_bytes()), (refused as i32, &stored("stdout")[..]), "{name}");
            let long = "a listing reads 28672 bytes and no more, and this file is longer: `time` answers from all of it\n";
            assert_eq!((ran.err.starts_with("rule "), ran.err.ends_with(long)), (refused, name == "listing_long"), "{name}: {}", ran.err);
        }
    }
    assert!(f.run("listing --help").text().contains("reads the first 28672 bytes"));
}

// ---- The benchmark ----

/// How many lines begin with a row's name.
fn rows(text: &str, name: &str) -> usize {
    text.lines().filter(|line| line.starts_with(&format!("| {name} |"))).count()
}

/// A build, local answers and ways with each number of roads in random order, of this size under this grid, and of no other.
fn has_roads_in_random_order(text: &str, n: usize, g: u32) {
    for density in ["1.4", "2", "2.8", "3.3", "4"] {
        let counts = ["build", "local answers", "ways"].map(|what| rows(text, &format!("{what}, N {n}, {density} roads a place, g {g}")));
        assert_eq!(counts, [1, 1, 1], "{density}: {text}");
    }
    assert_eq!(text.matches(" roads a place, ").count(), 15, "{text}");
}

/// One size under one grid: the questions are asked on its oracle, under which something is far, or nothing.
#[test]
fn bench_of_one_size_and_grid() {
    let f = Folder::new("messages_bench_one");
    for (n, g, far) in [(30, 16, 1), (30, 1, 0), (2, 8, 1)] {
        let ran = f.run(&format!("bench {n} {g}"));
        assert_eq!((ran.code, ran.err.as_str()), (0, ""));
        let rows = |what: &str| rows(&ran.text(), &format!("{what}, N {n}, g {g}"));
        assert_eq!(["build", "check an oracle", "far answers", "local answers", "ways", "block of 144"].map(rows), [1, 1, far, 1, 1, 2], "{}", ran.text());
        for (count, what) in [10, 1000].into_iter().flat_map(|count| ["times", "ways"].map(|what| (count, what))) {
            let counts = ["far", "local"].map(|kind| rows(&format!("{kind} {what} under {count} lines")));
            assert_eq!(counts, [far, 1], "{}", ran.text());
        }
        assert_eq!(["1000 legs", "1000 legs with the check"].map(rows), [1, 1], "{}", ran.text());
        has_roads_in_random_order(&ran.text(), n, g);
    }
}

/// A number below all sizes is measured itself, under each grid.
#[test]
fn bench_of_a_small_size() {
    for n in [1, 100] {
        let ran = Folder::new(&format!("messages_bench_{n}")).run(&format!("bench {n}"));
        assert_eq!((ran.code, ran.err.as_str()), (0, ""));
        let text = ran.text();
        for g in [16, 32, 64] {
            assert_eq!(rows(&text, &format!("build, N {n}, g {g}")), 1, "{text}");
        }
        assert_eq!(["local answers", "block of 144"].map(|what| rows(&text, &format!("{what}, N {n}, g 32"))), [1, 2], "{text}");
        let tables: Vec<&str> = text.split("\n\n").collect();
        let heads = [
            "| what | core | plain | unit | core's time / plain's |",
            "| what | block | single answers | unit | block's time / single answers' |",
            "| what | under a sheet | ways without it | unit | time under the sheet / ways' |",
            "| what | wages | single answers | unit | wages' time / single answers' |",
            "| what | core | plain | unit | core's time / plain's |",
        ];
        assert_eq!(tables.len(), heads.len(), "{text}");
        for (table, head) in tables.iter().zip(heads) {
            assert!(table.starts_with(&format!("{head}\n|---|---|---|---|---|")), "{table}");
        }
        has_roads_in_random_order(tables[4], n, 32);
    }
}
