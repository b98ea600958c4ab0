//! The program `jukesogbi` by subprocess: each command's output, and `refused N` with exit 1.

mod common;

use common::networks::{self, Old, Plan};
use common::program::{oracle, Folder};
use common::reference;

// ---- Building and the audit ----

#[test]
fn build_writes_the_oracle() {
    let f = Folder::with_files("build");
    f.run("build line.net 6 new").says("built 149 bytes, 1 transit\n");
    assert_eq!(f.read("new"), f.read("line.oracle"));
    f.run("build fork.net 6 new").says(&format!("built {} bytes, 2 transit\n", f.read("fork.oracle").len()));
    assert_eq!(f.read("new"), f.read("fork.oracle"));
    f.run("build two.net 64 new");
    assert_eq!(f.read("new"), oracle(&networks::two_lines(), 64));
}

#[test]
fn build_from_and_to_standard_streams() {
    let f = Folder::with_files("streams");
    f.run_with("build - 6 new", &f.read("line.net")).says("built 149 bytes, 1 transit\n");
    assert_eq!(f.read("new"), f.read("line.oracle"));
    let ran = f.run("build line.net 6 -");
    assert_eq!((ran.code, ran.err.as_str()), (0, "built 149 bytes, 1 transit\n"));
    assert_eq!(ran.out, f.read("line.oracle"));
    let ran = f.run_with("build - 6 -", &f.read("fork.net"));
    assert_eq!((ran.code, ran.out), (0, f.read("fork.oracle")));
    assert!(!f.has("-"));
}

#[test]
fn build_refuses_by_number() {
    let f = Folder::new("build_refuses");
    let line = networks::line();
    let refused = |network: Vec<u8>, rule: u32| {
        f.write("net", &network);
        f.run("build net 6 new").is_refused(rule);
        assert!(!f.has("new"), "a refused building has written a file");
    };
    refused(Plan { places: vec![], ..line.clone() }.bytes(), 3);
    refused(Plan { places: vec![(0, 0), (1_000_001, 0), (60, 0)], ..line.clone() }.bytes(), 4);
    refused(Plan { roads: vec![(0, 1, 1); 16_385], ..line.clone() }.bytes(), 5);
    refused(Plan { roads: vec![(0, 1, 100_001)], ..line.clone() }.bytes(), 6);
    refused(Old::of(line.clone(), [2]).bytes(), 7);
    refused(Old::of(line.clone(), [1]).bytes(), 21);
    f.write("net", b"");
    f.run("build net 6 new").is_refused(1);
    f.write("net", &[line.bytes(), vec![0]].concat());
    f.run("build net 6 new").is_refused(2);
    f.write("net", &line.bytes());
    for g in ["0", "65", "65539", "4294967295"] {
        f.run(&format!("build net {g} new")).is_refused(8);
    }
    f.run("build - 6 new").is_refused(1);
    assert!(!f.has("new"));
    // A refusal leaves an older file as it was.
    f.write("old", b"kept");
    f.run("build net 65 old").is_refused(8);
    assert_eq!(f.read("old"), b"kept");
}

#[test]
fn audit_accepts_and_refuses() {
    let f = Folder::with_files("audit");
    for name in ["line", "fork", "without", "two"] {
        f.run(&format!("audit {name}.oracle")).says("accepted\n");
    }
    f.run_with("audit -", &f.read("fork.oracle")).says("accepted\n");
    let mut changed = f.read("line.oracle");
    let size = changed.len();
    changed[size - 4] = 1;
    f.write("changed", &changed);
    f.run("audit changed").is_refused(16);
    changed[size - 1] = 255;
    f.write("changed", &changed);
    f.run("audit changed").is_refused(11);
    f.run("audit line.net").is_refused(1);
}

// ---- Times, ways and lists ----

#[test]
fn time_of_one_pair() {
    let f = Folder::with_files("time");
    f.run("time line.oracle 0 2").says("16 2 far 1\n");
    f.run("time line.oracle 0 1").says("7 1 local 0\n");
    f.run("time line.oracle 1 1").says("0 0 local 0\n");
    f.run("time fork.oracle 0 4").says("11 3 far 4\n");
    f.run("time fork.oracle 0 3").says("10 2 local 0\n");
    f.run("time without.oracle 0 4").says("- - far 0\n");
    f.run("time two.oracle 0 5").says("- - far 4\n");
    f.run("time two.oracle 0 3").says("- - local 0\n");
    f.run_with("time - 0 4", &f.read("fork.oracle")).says("11 3 far 4\n");
    f.run("time line.oracle 0 3").is_refused(12);
    f.run("time line.oracle 4294967295 0").is_refused(12);
    f.run("time line.net 0 1").is_refused(1);
}

#[test]
fn far_of_one_pair() {
    let f = Folder::with_files("far");
    f.run("far line.oracle 0 2").says("16 2 far 1\n");
    f.run("far fork.oracle 4 0").says("11 3 far 4\n");
    f.run("far without.oracle 0 4").says("- - far 0\n");
    f.run_with("far - 0 2", &f.read("line.oracle")).says("16 2 far 1\n");
    f.run("far fork.oracle 0 3").is_refused(13);
    f.run("far fork.oracle 0 5").is_refused(12);
}

#[test]
fn way_of_one_pair() {
    let f = Folder::with_files("way");
    f.run("way fork.oracle 0 4").says("0 1 3 4\n");
    f.run("way fork.oracle 4 0").says("4 3 1 0\n");
    f.run("way line.oracle 1 1").says("1\n");
    f.run("way without.oracle 0 4").does(0, "\n", "no way leads from 0 to 4\n");
    f.run_with("way - 0 4", &f.read("fork.oracle")).says("0 1 3 4\n");
    f.run("way fork.oracle 0 5").is_refused(12);
}

#[test]
fn list_of_a_place() {
    let f = Folder::with_files("list");
    f.run("list line.oracle 0").says("0 7 1\n");
    f.run("list line.oracle 1").says("");
    f.run("list line.oracle 2").says("0 9 1\n");
    f.run("list fork.oracle 4").says("0 6 2\n1 6 2\n");
    // Index 0 is place 1 and index 1 is place 4: each line's own has a time, the other none.
    f.run("list two.oracle 0").says("0 7 1\n1 - -\n");
    f.run("list two.oracle 5").says("0 - -\n1 100000 1\n");
    f.run_with("list - 0", &f.read("line.oracle")).says("0 7 1\n");
    f.run("list line.oracle 3").is_refused(12);
}

#[test]
fn block_of_times() {
    let f = Folder::with_files("block");
    f.run("block line.oracle 0,1,2 2,1,0,2").says("16 7 0 16\n9 0 7 9\n0 9 16 0\n");
    f.run("block fork.oracle 0,4 3,4").says("10 11\n1 0\n");
    f.run("block fork.oracle 0 4").says("11\n");
    f.run("block without.oracle 0,4 3,4").says("10 -\n- 0\n");
    f.run("block two.oracle 0,0,3 5,3,2").says("- - 16\n- - 16\n100002 0 -\n");
    f.run_with("block - 4 0,1", &f.read("fork.oracle")).says("11 6\n");
    f.run("block line.oracle 2,2,2,2,2,2,2,2,2,2,2,2 1").says(&"9\n".repeat(12));
    f.run("block line.oracle 1 0,0,0,0,0,0,0,0,0,0,0,0").says("7 7 7 7 7 7 7 7 7 7 7 7\n");
}

/// The block of roads, with the option before, between and behind the words.
#[test]
fn block_of_roads() {
    let f = Folder::with_files("block_roads");
    f.run("block line.oracle 0,1,2 2,1,0,2 --roads").says("2 1 0 2\n1 0 1 1\n0 1 2 0\n");
    f.run("--roads block fork.oracle 0,4 3,4").says("2 3\n1 0\n");
    f.run("block --roads without.oracle 0,4 3,4").says("2 -\n- 0\n");
    f.run("block two.oracle 0,0,3 --roads 5,3,2").says("- - 2\n- - 2\n2 0 -\n");
    f.run_with("block - 4 0,1 --roads --words 40", &f.read("fork.oracle")).says("3 2\n");
    f.run("block line.oracle 0,3 1 --roads").is_refused(12);
    f.run("block line.oracle '' 1 --roads").is_refused(17);
}

/// A junction of two places joined by 0 seconds, from the network to the picture.
#[test]
fn roads_of_no_time() {
    let f = Folder::new("no_time");
    f.write("net", &networks::junction().bytes());
    f.run("build net 6 oracle").says("built 171 bytes, 1 transit\n");
    f.run("audit oracle").says("accepted\n");
    f.run("time oracle 1 2").says("0 1 local 0\n");
    f.run("time oracle 0 3").says("16 3 far 1\n");
    f.run("way oracle 0 3").says("0 1 2 3\n");
    f.run("list oracle 3").says("0 9 2\n");
    f.run("block oracle 0,1 2,3").says("7 16\n0 9\n");
    f.run("block oracle 0,1 2,3 --roads").says("2 3\n1 2\n");
    f.run("listing oracle").says("places 4 transit 1\n0 1 7 local\n0 2 7 local\n0 3 16 far\n1 2 0 local\n1 3 9 local\n2 3 9 local\n");
    f.run_with("wages oracle", b"1 2\n0 3\n2 2\n").says("0\n16\n0\nnone 0 total 16\n");
    f.run("draw oracle picture 0 3").says("drawn 4 places\n");
    let picture = String::from_utf8(f.read("picture")).unwrap();
    assert!(picture.contains("way of 4 places, 3 roads") && picture.contains("total 16 s (0:00:16)"), "{picture}");
}

#[test]
fn block_refuses_by_number() {
    let f = Folder::with_files("block_refuses");
    for (starts, ends) in [("''", "0"), ("0", "''"), ("''", "''"), ("0,0,0,0,0,0,0,0,0,0,0,0,0", "1"), ("1", "0,0,0,0,0,0,0,0,0,0,0,0,0")] {
        let ran = f.run(&format!("block line.oracle {starts} {ends}"));
        ran.is_refused(17);
        assert_eq!(ran.err, "rule 17: either side of a block names no place or more than 12, or there are over 1,000 legs or a part of a leg\n");
        f.run(&format!("block line.oracle {starts} {ends} --words 0")).is_refused(17);
        f.run(&format!("block line.net {starts} {ends}")).is_refused(1);
    }
    f.run("block line.oracle 0,3 1").is_refused(12);
    f.run("block line.oracle 0 1,4294967295").is_refused(12);
    f.run("block line.oracle '' 3").is_refused(12);
    f.run("block line.oracle 0 0,0,0,0,0,0,0,0,0,0,0,0,3").is_refused(12);
    f.run("block line.oracle 0 2 --words 23").is_refused(14);
    f.run("block line.oracle 0 2 --words 24").says("16\n");
}

#[test]
fn listing_of_all_pairs() {
    let f = Folder::with_files("listing");
    f.run("listing line.oracle").says("places 3 transit 1\n0 1 7 local\n0 2 16 far\n1 2 9 local\n");
    f.run_with("listing -", &f.read("line.oracle")).says("places 3 transit 1\n0 1 7 local\n0 2 16 far\n1 2 9 local\n");
    f.run("listing without.oracle").says(
        "places 5 transit 0\n0 1 5 local\n0 2 5 local\n0 3 10 local\n0 4 - far\n\
        1 2 10 local\n1 3 5 local\n1 4 - local\n2 3 5 local\n2 4 - local\n3 4 - local\n",
    );
    let mut changed = f.read("line.oracle");
    changed[107] = 3;
    f.write("changed", &changed);
    f.run("listing changed").is_refused(9);
    f.run("listing line.net").is_refused(1);
}

// ---- What the core is lent ----

#[test]
fn words_and_room_that_are_lent() {
    let f = Folder::with_files("lent");
    f.run("build line.net 6 new --words 24 --room 149").says("built 149 bytes, 1 transit\n");
    assert_eq!(f.read("new"), f.read("line.oracle"));
    f.run("build line.net 6 other --words 23").is_refused(14);
    f.run("--room 148 build line.net 6 other").is_refused(15);
    f.run("build --words 23 line.net --room 0 6 other").is_refused(14);
    assert!(!f.has("other"));
    f.run("audit line.oracle --words 24").says("accepted\n");
    f.run("audit line.oracle --words 23").is_refused(14);
    f.run("time line.oracle 0 2 --words 0").is_refused(14);
    f.run("way fork.oracle 0 4 --words 39").is_refused(14);
    f.run("way fork.oracle 0 4 --room 8").says("0 1 3 4\n");
    f.run("way fork.oracle 0 4 --room 7").is_refused(15);
    f.run("way without.oracle 0 4 --room 0").does(0, "\n", "no way leads from 0 to 4\n");
    f.run("way fork.oracle 0 4 --room=7").is_refused(15);
    f.run("draw fork.oracle picture 0 4 --room 7").is_refused(15);
}

// ---- Samples, pictures and the rest ----

#[test]
fn sample_makes_accepted_networks() {
    let f = Folder::new("sample");
    for (n, seed) in [(1, 0), (2, 5), (60, 2)] {
        let ran = f.run(&format!("sample {n} {seed} net"));
        let network = f.read("net");
        ran.says(&format!("sample of {n} places, {} roads\n", reference::body(&network, 2).len() / 8));
        assert_eq!(reference::Network::of(network.clone()).size(), n);
        // The same seed gives the same network.
        let ran = f.run(&format!("sample {n} {seed} -"));
        assert_eq!((ran.code, ran.out), (0, network.clone()));
        assert!(ran.err.starts_with("sample of "));
        assert_eq!(f.run("build net 16 oracle").code, 0);
        assert_eq!(f.read("oracle"), reference::Network::of(network).oracle(16).bytes);
        f.run("audit oracle").says("accepted\n");
    }
    f.run("sample 0 1 net").is_wrong("1 to 4096");
    f.run("sample 4097 1 net").is_wrong("1 to 4096");
}

#[test]
fn draw_makes_a_picture() {
    let f = Folder::with_files("draw");
    f.run("draw fork.oracle fork.svg").says("drawn 5 places\n");
    let plain = String::from_utf8(f.read("fork.svg")).unwrap();
    assert!(plain.contains("<svg") && plain.trim_end().ends_with("</svg>"), "{plain}");
    f.run("draw fork.oracle way.svg 0 4").says("drawn 5 places\n");
    assert_ne!(f.read("way.svg"), plain.as_bytes(), "the way is not in the picture");
    let ran = f.run("draw fork.oracle - 0 4");
    assert_eq!((ran.code, ran.out, ran.err.as_str()), (0, f.read("way.svg"), "drawn 5 places\n"));
    f.run("draw without.oracle none.svg 0 4").does(0, "drawn 5 places\n", "no way leads from 0 to 4\n");
    f.run("draw fork.oracle other.svg 0 5").is_refused(12);
    f.run("draw fork.net other.svg").is_refused(1);
    f.run("draw fork.oracle other.svg 0 4 --words 39").is_refused(14);
    assert!(!f.has("other.svg"));
}

#[test]
fn demo_runs_through() {
    let f = Folder::new("demo");
    let ran = f.run("demo");
    assert_eq!((ran.code, ran.err.as_str()), (0, ""));
    let alike = "both grids answer alike on all 3600 pairs";
    for part in ["a sample: 60 places, 81 roads\n", "grid 8: built ", "grid 16: built ", "accepted by the audit", alike, "way 0 to 59: 0 "] {
        assert!(ran.text().contains(part), "{} has no {part}", ran.text());
    }
    assert!(f.has("demo.svg"));
}
