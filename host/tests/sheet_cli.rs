//! The program with day sheets: `sheet`, `sheet-text`, and `--sheet` for `time`, `way` and `draw`.

mod common;

use common::program::{words, Folder, Ran};
use common::reference::sheets::{sheet, with_contents, CLOSED, DELAYED};
use std::io::Write;

const FORM: &str = "rule 18: a sheet's form, a line's first byte, or the seconds of a closed line are wrong\n";

/// With the files of `Folder::with_files`, and sheets for Fork: `none` has no line, `side` closes a road that is on no way, `way` one that is on the way
/// from 0 to 4, `slow` delays its last road, `off` closes that, and `crew` delays it after its closure.
fn folder(name: &str) -> Folder {
    let f = Folder::with_files(name);
    for (name, lines) in [
        ("none", vec![]), ("side", vec![(CLOSED, 1, 0)]), ("way", vec![(CLOSED, 0, 0)]), ("slow", vec![(DELAYED, 4, 6)]), ("off", vec![(CLOSED, 4, 0)]),
        ("crew", vec![(CLOSED, 4, 0), (DELAYED, 4, 100_000), (DELAYED, 4, 0)]),
    ] {
        f.write(name, &sheet(&lines));
    }
    // Broken: 18, 19 and 20 on Fork.
    f.write("broken18", &sheet(&[(CLOSED, 9, 0), (CLOSED, 0, 1)]));
    f.write("broken19", &sheet(&[(CLOSED, 0, 0), (CLOSED, 5, 0)]));
    f.write("broken20", &sheet(&[(DELAYED, 4, 100_000)]));
    f
}

// ---- Making and printing ----

#[test]
fn a_sheet_from_a_text() {
    let f = Folder::new("sheet_make");
    f.write("day.txt", b"closed 3\ndelayed 258 66051\n\n  closed\t3 \r\ndelayed 0 0");
    f.run("sheet day.txt day").says("sheet of 4 lines, 2 closed, 2 delayed\n");
    let expected = sheet(&[(CLOSED, 3, 0), (DELAYED, 258, 66_051), (CLOSED, 3, 0), (DELAYED, 0, 0)]);
    assert_eq!(f.read("day"), expected);
    // Blank lines are not in the sheet, and so not in what is printed; that makes the same sheet again.
    let text = "closed 3\ndelayed 258 66051\nclosed 3\ndelayed 0 0\n";
    f.run("sheet-text day").says(text);
    let ran = f.run_with("sheet - -", text.as_bytes());
    assert_eq!((ran.code, ran.out, ran.err.as_str()), (0, expected.clone(), "sheet of 4 lines, 2 closed, 2 delayed\n"));
    f.run_with("sheet-text -", &expected).says(text);
    // The greatest numbers; and no line at all.
    f.run_with("sheet - most", b"delayed 65535 4294967295\nclosed 65535\n").says("sheet of 2 lines, 1 closed, 1 delayed\n");
    f.run("sheet-text most").says("delayed 65535 4294967295\nclosed 65535\n");
    for nothing in [&b""[..], b"\n", b" \n\t\n\n"] {
        f.run_with("sheet - empty", nothing).says("sheet of 0 lines, 0 closed, 0 delayed\n");
        assert_eq!(f.read("empty"), sheet(&[]));
        f.run("sheet-text empty").says("");
    }
}

/// A delay that follows a closure and does not end it is told of: the first such road, and how many more there are. All else is as without it.
#[test]
fn a_delay_after_a_closure() {
    let f = Folder::new("sheet_stays");
    let stays = |road: &str| format!("road {road}: a delay does not end a closure\n");
    for (text, report, note) in [
        ("closed 24\ndelayed 24 0\n", "sheet of 2 lines, 1 closed, 1 delayed\n", stays("24 stays closed")),
        ("closed 65535\ndelayed 65535 4294967295\n", "sheet of 2 lines, 1 closed, 1 delayed\n", stays("65535 stays closed")),
        ("delayed 3 1\nclosed 3\nclosed 3\ndelayed 3 1\ndelayed 3 0\n", "sheet of 5 lines, 2 closed, 3 delayed\n", stays("3 stays closed")),
        ("closed 9\nclosed 2\ndelayed 2 5\ndelayed 9 5\n", "sheet of 4 lines, 2 closed, 2 delayed\n", stays("9 stays closed (and 1 more road)")),
        (
            "closed 7\nclosed 9\nclosed 2\ndelayed 7 1\ndelayed 2 5\ndelayed 9 5\n", "sheet of 6 lines, 3 closed, 3 delayed\n",
            stays("7 stays closed (and 2 more roads)"),
        ),
        // Road 1 is closed last, road 2 is not closed, road 3 not delayed.
        ("closed 1\ndelayed 1 9\nclosed 1\ndelayed 2 9\ndelayed 2 0\nclosed 3\n", "sheet of 6 lines, 3 closed, 3 delayed\n", String::new()),
    ] {
        f.run_with("sheet - day", text.as_bytes()).does(0, report, &note);
        f.run("sheet-text day").says(text);
        // Where the sheet goes to standard output, the note stands below the report.
        let ran = f.run_with("sheet - -", text.as_bytes());
        assert_eq!((ran.code, ran.out, ran.err), (0, f.read("day"), format!("{report}{note}")));
    }
    // Not where there is no sheet.
    f.run_with("sheet - none/day", b"closed 1\ndelayed 1 0\n").is_wrong("cannot write none/day");
    f.run_with("sheet - other", b"closed 1\ndelayed 1 0\nx\n").is_wrong("standard input, line 3: `x`");
    assert!(!f.has("other"));
    let help = f.run("sheet --help").text();
    for part in ["A closure holds over every delay of its road", "standard error tells that the road stays closed"] {
        assert!(help.contains(part), "{help}");
    }
}

/// Each of the most roads closed, then delayed, over and over: the note takes no longer than the lines do.
#[test]
fn a_note_on_many_lines() {
    let f = Folder::new("sheet_many");
    let roads = |line: fn(u32) -> String| (0..65_536).map(line).collect::<String>();
    let (closures, delays) = (roads(|road| format!("closed {road}\n")), roads(|road| format!("delayed {road} 1\n")));
    let text = [closures, delays].concat().repeat(8);
    let begun = std::time::Instant::now();
    let ran = f.run_with("sheet - day", text.as_bytes());
    ran.does(0, "sheet of 1048576 lines, 524288 closed, 524288 delayed\n", "road 0 stays closed (and 65535 more roads): a delay does not end a closure\n");
    assert!(begun.elapsed() < std::time::Duration::from_secs(10), "{:?}", begun.elapsed());
}

#[test]
fn wrong_lines() {
    let f = Folder::new("sheet_wrong");
    f.write("old", b"kept");
    let form = "a line is `closed ROAD` or `delayed ROAD SECONDS`";
    let (road, seconds) = ("ROAD is a number from 0 to 65535", "SECONDS is a number from 0 to 4294967295");
    for (line, cause) in [
        ("closed", form), ("closed 1 2", form), ("delayed 1", form), ("delayed 1 2 3", form), ("closed 1 # why", form), ("CLOSED 1", form), ("1", form),
        ("closed x", road), ("closed 65536", road), ("closed -1", road), ("delayed 1.5 2", road), ("delayed 65536 x", road), ("delayed 1 x", seconds),
        ("delayed 1 4294967296", seconds),
    ] {
        f.write("day.txt", format!("closed 1\n\n{line}\nnor this\n").as_bytes());
        f.run("sheet day.txt old").does(2, "", &format!("jukesogbi: day.txt, line 3: `{line}`: {cause}\n"));
    }
    f.run_with("sheet - old", b"closed 1\nclosed \xff\n").does(2, "", "jukesogbi: standard input, line 2: `closed \\xff`: this is no text\n");
    f.run_with("sheet - old", &[b"closed 1".to_vec(), vec![b' '; 4090]].concat()).does(2, "", "jukesogbi: standard input, line 1: longer than 4096 bytes\n");
    f.run_with("sheet - old", "7".repeat(3000).as_bytes()).does(2, "", &format!("jukesogbi: standard input, line 1: `{}..`: {form}\n", "7".repeat(60)));
    // A line without an end is not waited for.
    f.run("sheet /dev/zero old").does(2, "", "jukesogbi: /dev/zero, line 1: longer than 4096 bytes\n");
    f.run("sheet none.txt old").does(2, "", "jukesogbi: cannot read none.txt: No such file or directory (os error 2)\n");
    assert_eq!(f.read("old"), b"kept");
    assert!(f.run("sheet --help").text().contains("blank lines, which are passed over"));
}

/// What is printed is what rule 18 takes.
#[test]
fn no_sheet_is_printed() {
    let f = folder("sheet_print");
    let text = b"closed 1\ndelayed 4 100\n".to_vec();
    let looks = |what: &str| format!("{FORM}this looks like {what}\n");
    let (other, of_text) = (looks("a network or an oracle, and no day sheet"), looks("the text of a day sheet: `jukesogbi sheet` makes a sheet of it"));
    for (bytes, err) in [
        (vec![], FORM), (vec![0; 11], FORM), (sheet(&[])[..10].to_vec(), FORM), (with_contents(vec![2; 6]), FORM), (sheet(&[(0, 0, 0)]), FORM),
        (sheet(&[(CLOSED, 0, 1)]), FORM), ([sheet(&[]), vec![0]].concat(), FORM), (f.read("line.net"), &other), (f.read("line.oracle"), &other),
        (text, &of_text),
    ] {
        f.write("wrong", &bytes);
        for ran in [f.run("sheet-text wrong"), f.run_with("sheet-text -", &bytes)] {
            ran.does(1, "refused 18\n", err);
        }
        f.run("time fork.oracle 0 4 --sheet wrong").does(1, "refused 18\n", err);
    }
    // 19 and 20 take an oracle.
    f.run("sheet-text broken19").says("closed 0\nclosed 5\n");
    f.run("sheet-text broken20").says("delayed 4 100000\n");
}

/// A sheet is read as far as its contents claim, and so a stream without an end is refused.
#[test]
fn streams_without_an_end() {
    let f = folder("sheet_endless");
    f.run("sheet-text /dev/zero").is_refused(18);
    f.run("time fork.oracle 0 4 --sheet /dev/zero").is_refused(18);
    f.shell("cat side /dev/zero | $J sheet-text -").is_refused(18);
    f.shell("cat side side | $J time fork.oracle 0 4 --sheet -").is_refused(18);
    // One that claims four gigabytes and ends.
    let mut claims = f.read("side");
    claims[7..11].copy_from_slice(&4_294_967_292u32.to_le_bytes());
    f.write("claims", &claims);
    f.run("sheet-text claims").is_refused(18);
    // A long one.
    let line = "delayed 1 7\n".repeat(100_000);
    f.run_with("sheet - long", line.as_bytes()).says("sheet of 100000 lines, 0 closed, 100000 delayed\n");
    f.run("sheet-text long").says(&line);
    f.run("time fork.oracle 0 4 --sheet long").says("11 3 far 4\n");
}

// ---- Questions under a sheet ----

#[test]
fn time_and_way() {
    let f = folder("sheet_ask");
    let (old, other) = ("0 1 3 4", "0 2 3 4");
    for (name, time, way) in [("none", "11 3 far 4", old), ("side", "11 3 far 4", old), ("way", "11 3 local 0", other), ("slow", "17 3 local 0", old)] {
        f.run(&format!("time fork.oracle 0 4 --sheet {name}")).says(&format!("{time}\n"));
        f.run(&format!("way --sheet={name} fork.oracle 0 4")).says(&format!("{way}\n"));
        f.run_with(&format!("time fork.oracle --sheet {name}"), b"0 4\n\n1 1\n").says(&format!("{time}\n0 0 local 0\n"));
        f.run_with(&format!("way fork.oracle --sheet {name}"), b"0 4\n1 1\n").says(&format!("{way}\n1\n"));
    }
    // A delay does not end a closure, nor is it refused for its seconds.
    for name in ["off", "crew"] {
        f.run(&format!("time fork.oracle 0 4 --sheet {name}")).says("- - local 0\n");
        f.run(&format!("way fork.oracle 0 4 --sheet {name}")).does(0, "\n", "no way leads from 0 to 4\n");
    }
    f.run_with("way fork.oracle --sheet off", b"0 3\n0 4\n").does(0, "0 1 3\n\n", "line 2: no way leads from 0 to 4\n");
    // Without road 4 there is none before and after, and no line can be about it.
    f.run("time without.oracle 0 4 --sheet way").says("- - far 0\n");
    f.run("time without.oracle 0 4 --sheet slow").is_refused(19);
    // The last name counts.
    f.run("time fork.oracle 0 4 --sheet off --sheet slow").says("17 3 local 0\n");
    for command in ["time", "way", "draw"] {
        assert!(f.run(&format!("{command} --help")).text().contains("[--sheet SHEET]"), "{command}");
    }
}

#[test]
fn refusals() {
    let f = folder("sheet_refused");
    for rule in [18, 19, 20] {
        for command in ["time", "way"] {
            f.run(&format!("{command} fork.oracle 0 4 --sheet broken{rule}")).is_refused(rule);
            // 12 comes first, and 14 last.
            f.run(&format!("{command} fork.oracle 0 5 --sheet broken{rule}")).is_refused(12);
            f.run(&format!("{command} fork.oracle 0 4 --sheet broken{rule} --words 0")).is_refused(rule);
            f.run(&format!("{command} fork.net 0 4 --sheet broken{rule}")).is_refused(1);
            // Once, and at once, also before the rule of the words.
            for input in [&b""[..], b"0 4\n1 2\n", b"0 9\n", b"no pair\n"] {
                f.run_with(&format!("{command} fork.oracle --sheet broken{rule}"), input).is_refused(rule);
                f.run_with(&format!("{command} fork.oracle --sheet broken{rule} --words 39"), input).is_refused(rule);
                f.run_with(&format!("{command} fork.net --sheet broken{rule}"), input).is_refused(1);
            }
        }
        f.run(&format!("draw fork.oracle p.svg --sheet broken{rule}")).is_refused(rule);
        f.run(&format!("draw fork.oracle p.svg 0 4 --sheet broken{rule}")).is_refused(rule);
    }
    assert_eq!(f.run("time fork.oracle 0 4 --sheet broken19").err, "rule 19: a line of the sheet names no road\n");
    assert_eq!(f.run("time fork.oracle 0 4 --sheet broken20").err, "rule 20: the line that holds takes a road over 100,000 seconds\n");
    f.run("time fork.oracle 0 4 --sheet slow --words 39").is_refused(14);
    f.run("way fork.oracle 0 4 --sheet slow --room 7").is_refused(15);
    f.run_with("time fork.oracle --sheet slow --words 39", b"0 4\n").is_refused(14);
    // Pairs are refused one by one.
    let ran = f.run_with("time fork.oracle --sheet slow", b"0 4\n0 5\nx\n4 3\n");
    assert_eq!((ran.code, ran.text().as_str()), (2, "17 3 local 0\nrefused 12\nwrong\n7 1 local 0\n"));
    let short = "line 1: 0 4: rule 15: output shorter than the whole result\n";
    f.run_with("way fork.oracle --sheet way --room 6", b"0 4\n0 2\n").does(1, "refused 15\n0 2\n", short);
    assert!(!f.has("p.svg"));
}

#[test]
fn sheets_from_standard_input() {
    let f = folder("sheet_streams");
    f.run_with("time fork.oracle 0 4 --sheet -", &f.read("slow")).says("17 3 local 0\n");
    f.run_with("way - 0 4 --sheet way", &f.read("fork.oracle")).says("0 2 3 4\n");
    let both = |ran: Ran, one: &str, other: &str| ran.does(2, "", &format!("jukesogbi: {one} and {other} cannot both come from standard input\n"));
    both(f.run("time - 0 4 --sheet -"), "the oracle", "the sheet");
    both(f.run("draw - p.svg --sheet -"), "the oracle", "the sheet");
    for command in ["time", "way"] {
        both(f.run(&format!("{command} fork.oracle --sheet -")), "the sheet", "the pairs");
        both(f.run(&format!("{command} - --sheet side")), "the oracle", "the pairs");
        both(f.run(&format!("{command} - --sheet -")), "the oracle", "the sheet");
    }
    f.run("time fork.oracle 0 4 --sheet missing").does(2, "", "jukesogbi: cannot read missing: No such file or directory (os error 2)\n");
    // A sheet in the place of another file.
    let looks = "\nthis looks like a day sheet, ";
    let (option, none) = ("which is for the option `--sheet`", "and no network");
    for (call, word) in [("time side 0 4", option), ("build side 6 new", none), ("convert side new", none)] {
        let ran = f.run(call);
        ran.is_refused(1);
        assert!(ran.err.ends_with(&format!("{looks}{word}\n")), "{}", ran.err);
    }
}

/// Each answer as it comes, with the sheet read once: it may be gone by then.
#[test]
fn a_conversation() {
    let f = folder("sheet_talk");
    let mut child = f.command(words("time fork.oracle --sheet slow")).spawn().unwrap();
    let (mut to, mut from) = (child.stdin.take().unwrap(), std::io::BufReader::new(child.stdout.take().unwrap()));
    for (asked, answer) in [("0 4\n", "17 3 local 0\n"), ("0 3\n", "10 2 local 0\n"), ("4 0\n", "17 3 local 0\n")] {
        to.write_all(asked.as_bytes()).unwrap();
        let mut line = String::new();
        std::io::BufRead::read_line(&mut from, &mut line).unwrap();
        assert_eq!(line, answer);
        let _ = std::fs::remove_file(f.0.join("slow"));
    }
    drop(to);
    assert_eq!(child.wait().unwrap().code(), Some(0));
}

// ---- Pictures ----

#[test]
fn draw_under_a_sheet() {
    let f = folder("sheet_draw");
    let picture = |args: &str| {
        f.run(&format!("draw fork.oracle p.svg {args}")).says("drawn 5 places\n");
        String::from_utf8(f.read("p.svg")).unwrap()
    };
    let (plain, shut, slow) = (picture("0 4"), picture("0 4 --sheet way"), picture("0 4 --sheet slow"));
    assert!(!plain.contains("today") && plain.contains("total 11 s"));
    let tells = |picture: &str, texts: [&str; 4]| texts.iter().for_each(|text| assert!(picture.contains(text), "{text}"));
    tells(&shut, ["today: 1 closed road<", "today: 0 delayed roads<", "4 open roads<", "total 11 s"]);
    tells(&slow, ["today: 0 closed roads<", "today: 1 delayed road<", "5 open roads<", "total 17 s"]);
    assert!(picture("--sheet off").contains("today: 1 closed road<"));
    tells(&picture("--sheet crew"), ["today: 1 closed road<", "today: 0 delayed roads<", "4 open roads<", "1 closed road<"]);
    f.run("draw fork.oracle p.svg 0 4 --sheet off").does(0, "drawn 5 places\n", "no way leads from 0 to 4\n");
}
