//! The program's converter: both commands, standard streams, refusals and their messages. And each other command, which sends a file with closed roads back
//! by 21 and names the converter; and an oracle of edition 1, which is that of an old network too, by 1 and says to build it again.

mod common;

use common::networks::{self, Old};
use common::program::{Folder, Ran};
use common::reference::sheets::{sheet, CLOSED, DELAYED};
use common::tables::Tables;

const CLOSED_ROADS: &str =
    "rule 21: closed roads in body 3, which must be empty: `jukesogbi convert NETWORK NEW` (jukesogbi_convert) leaves them out of a network\n";
const OLD_ORACLE: &str = "rule 1: fewer than 2 bytes, a wrong edition, a wrong entry count or an incomplete contents\n\
    this is an oracle of an older edition: `jukesogbi build` builds it again from its network\n";

/// With Fork's files, and those of Fork with roads 1 and 3 closed: network, oracle, as it was and as it would be in today's edition, and sheets of it.
fn folder(name: &str) -> Folder {
    let f = Folder::with_files(name);
    let old = Old::of(networks::fork(), [1, 3]);
    f.write("old.net", &old.bytes());
    f.write("closed.oracle", &old.oracle(6));
    f.write("old.oracle", &Tables::of(&old.oracle(6), 5).edition_1(old.bodies(), 6));
    f.write("left.net", &old.left_out().bytes());
    f.write("old.sheet", &sheet(&[(DELAYED, 4, 6), (CLOSED, 3, 0), (CLOSED, 2, 0), (DELAYED, 1, 9), (DELAYED, 4, 5)]));
    f.write("left.sheet", &sheet(&[(DELAYED, 2, 6), (CLOSED, 1, 0), (DELAYED, 2, 5)]));
    f
}

fn gives(ran: Ran, out: Vec<u8>, err: &str) {
    assert_eq!((ran.code, ran.out, ran.err.as_str()), (0, out, err));
}

// ---- The commands ----

#[test]
fn a_network() {
    let f = folder("convert_network");
    f.run("convert old.net new.net").says("converted 93 bytes\n");
    assert_eq!(f.read("new.net"), f.read("left.net"));
    gives(f.run("convert old.net -"), f.read("left.net"), "converted 93 bytes\n");
    f.run_with("convert - other", &f.read("old.net")).says("converted 93 bytes\n");
    gives(f.run_with("convert - -", &f.read("old.net")), f.read("left.net"), "converted 93 bytes\n");
    assert_eq!(f.read("other"), f.read("left.net"));
    // Over itself, and a second time, which changes nothing more.
    for _ in 0..2 {
        f.run("convert old.net old.net").says("converted 93 bytes\n");
        assert_eq!(f.read("old.net"), f.read("left.net"));
    }
    // One without closed roads stays as it is.
    for name in ["line.net", "fork.net", "two.net"] {
        let bytes = f.read(name);
        f.run(&format!("convert {name} same")).says(&format!("converted {} bytes\n", bytes.len()));
        assert_eq!(f.read("same"), bytes);
    }
    // The converted network is built, audited and asked.
    f.run("build new.net 6 new.oracle").says("built 185 bytes, 1 transit\n");
    f.run("audit new.oracle").says("accepted\n");
    f.run("time new.oracle 0 4").says("11 3 far 1\n");
    f.run("way new.oracle 0 2").does(0, "\n", "no way leads from 0 to 2\n");
}

/// Document 01's closed trial, by the program.
#[test]
fn the_closed_trial() {
    let f = folder("convert_trial");
    f.write("closed.net", &networks::fork_closed().bytes());
    f.run("build closed.net 6 closed.oracle").does(1, "refused 21\n", CLOSED_ROADS);
    f.run("convert closed.net new.net").says("converted 101 bytes\n");
    assert_eq!(f.read("new.net"), f.read("without.net"));
    assert_eq!(f.run("build new.net 6 new.oracle").code, 0);
    f.run("time new.oracle 0 4").says("- - far 0\n");
}

#[test]
fn a_sheet() {
    let f = folder("convert_sheet");
    f.run("convert-sheet old.net old.sheet new.sheet").says("converted 32 bytes\n");
    assert_eq!(f.read("new.sheet"), f.read("left.sheet"));
    gives(f.run("convert-sheet old.net old.sheet -"), f.read("left.sheet"), "converted 32 bytes\n");
    f.run_with("convert-sheet - old.sheet by_network", &f.read("old.net")).says("converted 32 bytes\n");
    f.run_with("convert-sheet old.net - by_sheet", &f.read("old.sheet")).says("converted 32 bytes\n");
    assert_eq!((f.read("by_network"), f.read("by_sheet")), (f.read("left.sheet"), f.read("left.sheet")));
    f.run_with("convert-sheet - - none", b"").does(2, "", "jukesogbi: the network and the sheet cannot both come from standard input\n");
    assert!(!f.has("none"));
    f.run("sheet-text new.sheet").says("delayed 2 6\nclosed 1\ndelayed 2 5\n");
    // Over itself.
    f.run("convert-sheet old.net old.sheet old.sheet").says("converted 32 bytes\n");
    assert_eq!(f.read("old.sheet"), f.read("left.sheet"));
    // A sheet of a network without closed roads stays as it is; one about closed roads only has no line left.
    f.run("convert-sheet fork.net left.sheet same").says("converted 32 bytes\n");
    assert_eq!(f.read("same"), f.read("left.sheet"));
    f.run_with("sheet - gone", b"closed 1\ndelayed 3 7\n");
    f.run("convert-sheet old.net gone empty").says("converted 11 bytes\n");
    f.run("sheet-text empty").says("");
}

// ---- Refusals ----

#[test]
fn what_is_lent() {
    let f = folder("convert_lent");
    f.run("convert old.net new --room 93").says("converted 93 bytes\n");
    f.run("convert old.net other --room 92").is_refused(15);
    f.run("convert-sheet --room 32 old.net old.sheet new").says("converted 32 bytes\n");
    f.run("convert-sheet --room=31 old.net old.sheet other").is_refused(15);
    assert!(!f.has("other"));
    for command in ["convert old.net new", "convert-sheet old.net old.sheet new"] {
        let text = "jukesogbi: there is no memory for 999999999999999 bytes of output (--room B lends B)\n";
        f.run(&format!("{command} --room 999999999999999")).does(2, "", text);
    }
}

#[test]
fn refusals_by_number() {
    let f = folder("convert_refused");
    f.write("kept", b"as it was");
    let mut damaged = vec![(1, vec![]), (1, f.read("old.oracle")), (2, [f.read("old.net"), vec![0]].concat())];
    for (rule, closed) in [(7, vec![5]), (7, vec![1, 1]), (7, vec![3, 1])] {
        damaged.push((rule, Old::of(networks::fork(), closed).bytes()));
    }
    for (rule, at, byte) in [(4, 32, 0x7f), (6, 69, 5)] {
        let mut bytes = f.read("old.net");
        bytes[at] = byte;
        damaged.push((rule, bytes));
    }
    for (rule, bytes) in damaged {
        f.write("net", &bytes);
        f.run("convert net kept").is_refused(rule);
        f.run("convert-sheet net old.sheet kept").is_refused(rule);
        // Before 18 and 15.
        f.run("convert-sheet net net kept --room 0").is_refused(rule);
        f.run_with("convert - kept", &bytes).is_refused(rule);
    }
    f.write("text", b"closed 1\n");
    f.write("names", &sheet(&[(CLOSED, 1, 0), (CLOSED, 5, 0)]));
    let form = "rule 18: a sheet's form, a line's first byte, or the seconds of a closed line are wrong\n";
    let file = "this looks like a network or an oracle, and no day sheet\n";
    let text = "this looks like the text of a day sheet: `jukesogbi sheet` makes a sheet of it\n";
    f.run("convert-sheet old.net old.net kept").does(1, "refused 18\n", &format!("{form}{file}"));
    f.run("convert-sheet old.net text kept").does(1, "refused 18\n", &format!("{form}{text}"));
    f.run("convert-sheet old.net names kept").does(1, "refused 19\n", "rule 19: a line of the sheet names no road\n");
    f.run("convert-sheet old.net names kept --room 0").is_refused(19);
    // 20 is not looked at.
    f.write("slow", &sheet(&[(DELAYED, 0, u32::MAX), (DELAYED, 1, u32::MAX)]));
    f.run("convert-sheet old.net slow new").says("converted 18 bytes\n");
    assert_eq!(f.read("kept"), b"as it was");
}

#[test]
fn help_and_files() {
    let f = folder("convert_help");
    let network = f.run("help convert").text();
    assert!(network.starts_with("usage: jukesogbi convert NETWORK NEW [--room B]\n"), "{network}");
    assert!(network.contains("old number less the closed ones before it") && network.contains("by rule 21"), "{network}");
    let lines = f.run("convert-sheet --help").text();
    assert!(lines.starts_with("usage: jukesogbi convert-sheet NETWORK SHEET NEW [--room B]\n") && lines.contains("rule 18 or 19"), "{lines}");
    f.run("convert old.net none/new").is_wrong("cannot write none/new");
    f.run("convert-sheet old.net old.sheet none/new").is_wrong("cannot write none/new");
    // Nothing but the results is left behind.
    assert!(f.names().iter().all(|name| !name.starts_with('.')), "{:?}", f.names());
}

// ---- Every other command ----

/// An old network, whatever else is asked.
#[test]
fn an_old_network_elsewhere() {
    let f = folder("convert_elsewhere");
    for call in ["build old.net 6 new", "build old.net 65 new", "build old.net 6 new --words 0", "build old.net 6 new --room 0", "build old.net 6 -"] {
        f.run(call).does(1, "refused 21\n", CLOSED_ROADS);
    }
    f.run_with("build - 6 new", &f.read("old.net")).does(1, "refused 21\n", CLOSED_ROADS);
    assert!(!f.has("new"));
}

/// The commands that read this oracle send it back so.
fn sent_back(f: &Folder, name: &str, rule: u32, told: &str) {
    let (refused, of) = (format!("refused {rule}\n"), |call: &str| call.replace("old.oracle", name));
    for call in [
        "audit old.oracle", "audit old.oracle --words 0", "time old.oracle 0 4", "time old.oracle 0 9", "time old.oracle", "far old.oracle 0 4",
        "far old.oracle", "time old.oracle 0 4 --sheet left.sheet", "time old.oracle --sheet left.sheet", "time old.oracle 0 4 --sheet old.net",
        "list old.oracle 0", "way old.oracle 0 4", "way old.oracle", "way old.oracle 0 4 --sheet left.sheet", "way old.oracle 0 4 --room 0",
        "block old.oracle 0,1 4", "block old.oracle '' 0", "wages old.oracle", "listing old.oracle", "draw old.oracle p.svg", "draw old.oracle p.svg 0 4",
        "draw old.oracle - 0 4", "draw old.oracle p.svg --sheet left.sheet",
    ] {
        f.run(&of(call)).does(1, &refused, told);
    }
    for call in ["time old.oracle", "far old.oracle", "way old.oracle", "wages old.oracle", "time old.oracle --sheet left.sheet"] {
        f.run_with(&of(call), b"0 4\n1 2\n").does(1, &refused, told);
    }
    for call in ["audit -", "time - 0 4", "way - 0 4", "list - 0", "listing -", "draw - p.svg"] {
        f.run_with(call, &f.read(name)).does(1, &refused, told);
    }
    assert!(!f.has("p.svg"));
}

#[test]
fn an_oracle_with_closed_roads() {
    sent_back(&folder("convert_closed_oracle"), "closed.oracle", 21, CLOSED_ROADS);
}

/// With closed roads and without.
#[test]
fn an_oracle_of_edition_1() {
    let f = folder("convert_old_oracle");
    f.write("older.oracle", &Tables::of(&f.read("fork.oracle"), 5).edition_1(networks::fork().bodies(), 6));
    for name in ["old.oracle", "older.oracle"] {
        sent_back(&f, name, 1, OLD_ORACLE);
        // It is no network either.
        let ran = f.run(&format!("build {name} 6 new"));
        ran.is_refused(1);
        assert!(ran.err.ends_with("this looks like an oracle: the network that it is of is wanted\n") && !f.has("new"), "{}", ran.err);
    }
    // Built again it is accepted.
    f.run("convert old.net new.net").says("converted 93 bytes\n");
    assert_eq!(f.run("build new.net 6 old.oracle").code, 0);
    f.run("audit old.oracle").says("accepted\n");
}

/// The old network of the README: Fork with road 1 closed.
#[test]
fn the_stored_old_network() {
    let stored = include_bytes!("../../examples/old.net");
    assert_eq!(stored[..], Old::of(networks::fork(), [1]).bytes());
}
