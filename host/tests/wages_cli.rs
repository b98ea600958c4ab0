//! The program's wages sheet: legs from standard input, a line for each and one for all.

mod common;

use common::networks;
use common::program::{finish, oracle, touched, words, Folder};
use std::io::Write;

// ---- Answers ----

#[test]
fn a_line_for_each_leg() {
    let f = Folder::with_files("wages_lines");
    f.run_with("wages fork.oracle", b"0 4\n0 3\n2 2\n0 4\n").says("11\n10\n0\n11\nnone 0 total 32\n");
    f.run_with("wages line.oracle", b"0 2\n").says("16\nnone 0 total 16\n");
    // Without road 4 place 4 is cut off: from 0 it is far, from 3 local.
    f.run_with("wages without.oracle", b"3 4\n0 3\n0 4\n4 4\n").says("-\n10\n-\n0\nnone 2 total 10\n");
    f.run_with("wages without.oracle", b"4 0\n").says("-\nnone 1 total 0\n");
    f.write("one", &oracle(&networks::one_place(), 64));
    f.run_with("wages one", b"0 0\n0 0\n").says("0\n0\nnone 0 total 0\n");
}

#[test]
fn no_legs() {
    let f = Folder::with_files("wages_none");
    f.run_with("wages fork.oracle", b"").says("none 0 total 0\n");
    f.shell("$J wages fork.oracle < /dev/null").says("none 0 total 0\n");
}

/// Blanks, ends of lines and leading zeros are as for pairs.
#[test]
fn how_lines_are_read() {
    let f = Folder::with_files("wages_read");
    f.run_with("wages fork.oracle", b"  0\t 4 \r\n+0 004\n4 0").says("11\n11\n11\nnone 0 total 33\n");
    // Up to the longest line that is taken.
    f.run_with("wages fork.oracle", &[b"0 4".to_vec(), vec![b' '; 4_093], b"\n0 3\n".to_vec()].concat()).says("11\n10\nnone 0 total 21\n");
}

#[test]
fn a_total_beyond_32_bits() {
    let f = Folder::new("wages_total");
    let places = (0..100).map(|k| (k, 0)).collect();
    let plan = networks::Plan { places, roads: (0..99).map(|u| (u, u + 1, 100_000)).collect() };
    f.write("chain", &oracle(&plan, 1));
    let expected = "9900000\n".repeat(1_000) + "none 0 total 9900000000\n";
    f.run_with("wages chain", "0 99\n".repeat(1_000).as_bytes()).says(&expected);
}

// ---- Wrong lines ----

/// Nothing is printed, whatever else is wrong, and the line is told by its number.
#[test]
fn wrong_lines() {
    let f = Folder::with_files("wages_wrong");
    let pair = |line: &str| format!("`{line}` is no pair `S T` of numbers from 0 to 4294967295");
    for line in ["0", "0 1 2", "x", "0 x", "-1 0", "0 -1", "1.5 2", "0,4", "0;4", "0 4 # a remark", "4294967296 0", "0 99999999999999999999", "closed 3"] {
        let input = format!("0 4\n4 0\n{line}\nnor this\n");
        // Before the refusals of legs, words, output and oracle.
        for call in ["wages fork.oracle", "wages fork.oracle --words 0", "wages fork.oracle --room 0", "wages fork.net"] {
            f.run_with(call, input.as_bytes()).does(2, "", &format!("jukesogbi: standard input, line 3: {}\n", pair(line)));
        }
        f.run_with("wages fork.oracle", format!("0 9\n{line}").as_bytes()).does(2, "", &format!("jukesogbi: standard input, line 2: {}\n", pair(line)));
        let behind = "0 4\n".repeat(1_500) + line;
        f.run_with("wages fork.oracle", behind.as_bytes()).does(2, "", &format!("jukesogbi: standard input, line 1501: {}\n", pair(line)));
    }
    // A blank line too: what is printed would not stand line by line beside what was entered.
    for blank in ["0 4\n\n4 0\n", "0 4\n \t\r\n", "0 4\n\n"] {
        f.run_with("wages fork.oracle", blank.as_bytes()).does(2, "", "jukesogbi: standard input, line 2: blank, and no leg `S T`\n");
    }
    f.run_with("wages fork.oracle", b"0 4\n0 \xff\n").does(2, "", &format!("jukesogbi: standard input, line 2: {}\n", pair("0 \\xff")));
    let long = [b"0 4".to_vec(), vec![b' '; 4_094]].concat();
    f.run_with("wages fork.oracle", &long).does(2, "", "jukesogbi: standard input, line 1: longer than 4096 bytes\n");
    f.run_with("wages fork.oracle", &[7; 3_000]).does(2, "", &format!("jukesogbi: standard input, line 1: {}\n", pair(&("\\x07".repeat(60) + ".."))));
    // A line without an end is not waited for.
    f.shell("$J wages fork.oracle < /dev/zero").does(2, "", "jukesogbi: standard input, line 1: longer than 4096 bytes\n");
}

// ---- Refusals ----

#[test]
fn refusals() {
    let f = Folder::with_files("wages_refused");
    let many = "rule 17: either side of a block names no place or more than 12, or there are over 1,000 legs or a part of a leg\n";
    f.run_with("wages fork.oracle", "0 4\n".repeat(1_001).as_bytes()).does(1, "refused 17\n", many);
    f.run_with("wages fork.oracle", b"0 5\n").does(1, "refused 12\n", "rule 12: a place number in the call not below N\n");
    f.run_with("wages fork.net", b"0 4\n").is_refused(1);
    f.run_with("wages fork.net", b"").is_refused(1);
    f.write("longer", &[f.read("fork.oracle"), vec![0]].concat());
    f.run_with("wages longer", b"0 9\n").is_refused(2);
    for legs in ["", "0 4\n", "0 4\n1 1\n"] {
        let size = 12 + legs.len();
        f.run_with("wages fork.oracle --words 39", legs.as_bytes()).is_refused(14);
        f.run_with(&format!("wages fork.oracle --room {}", size - 1), legs.as_bytes()).is_refused(15);
        assert_eq!(f.run_with(&format!("wages fork.oracle --words 40 --room {size}"), legs.as_bytes()).code, 0);
    }
    // In their order.
    f.run_with("wages fork.oracle --words 0 --room 0", b"5 0\n").is_refused(12);
    f.run_with("wages fork.oracle --words 0 --room 0", "0 4\n".repeat(1_001).as_bytes()).is_refused(17);
    f.run_with("wages fork.oracle --words 0 --room 0", b"0 4\n").is_refused(14);
}

/// A number that 16 bits do not hold names no place, and is never taken for the one that its low bits are.
#[test]
fn numbers_beyond_16_bits() {
    let f = Folder::with_files("wages_large");
    for number in [5, 4_096, 65_535, 65_536, 65_540, 131_072, u32::MAX - 65_535, u32::MAX] {
        for line in [format!("{number} 0\n"), format!("0 {number}\n"), format!("{number} {number}\n")] {
            f.run_with("wages fork.oracle", line.as_bytes()).is_refused(12);
            f.run_with("wages fork.oracle", format!("0 4\n{line}0 3\n").as_bytes()).is_refused(12);
        }
    }
}

// ---- Many legs ----

/// Over 1,000 legs are refused by 17, or by 12 where any of them names no place: what is kept of them says which.
#[test]
fn too_many_legs() {
    let f = Folder::with_files("wages_many");
    let right = "0 4\n".repeat(1_000);
    f.run_with("wages fork.oracle", right.as_bytes()).says(&("11\n".repeat(1_000) + "none 0 total 11000\n"));
    for more in ["4 4\n", "0 4\n4 0\n4 4\n", "1 1\n"] {
        f.run_with("wages fork.oracle", (right.clone() + more).as_bytes()).is_refused(17);
    }
    for more in ["5 0\n", "0 5\n", "0 4\n5 4\n4 4\n", "0 4\n4 70000\n0 0\n0 0\n", "1 1\n2 2\n3 3\n4294967295 1\n"] {
        f.run_with("wages fork.oracle", (right.clone() + more).as_bytes()).is_refused(12);
    }
    // One that names no place among the first 1,000.
    f.run_with("wages fork.oracle", ("9 0\n".to_string() + &right).as_bytes()).is_refused(12);
    let long = right.repeat(300);
    f.run_with("wages fork.oracle", long.as_bytes()).is_refused(17);
    f.run_with("wages fork.oracle", (long + "0 5").as_bytes()).is_refused(12);
}

/// However many legs come, they take no more memory, and are read to their end.
#[test]
fn memory_for_many_legs() {
    let f = Folder::with_files("wages_memory");
    let mut child = f.command(words("wages fork.oracle")).spawn().unwrap();
    let lines = "0 4\n".repeat(25_000);
    for _ in 0..500 {
        child.stdin.as_mut().unwrap().write_all(lines.as_bytes()).unwrap();
    }
    assert!(touched(&child) < 20_000, "{} kB", touched(&child));
    finish(child, b"0 5\n").is_refused(12);
}

// ---- Standard input and the oracle ----

#[test]
fn standard_input_is_for_the_legs() {
    let f = Folder::with_files("wages_streams");
    f.run_with("wages -", &f.read("fork.oracle")).does(2, "", "jukesogbi: the oracle and the legs cannot both come from standard input\n");
    f.run("wages none").does(2, "", "jukesogbi: cannot read none: No such file or directory (os error 2)\n");
    let help = f.run("wages --help").text();
    for part in ["usage: jukesogbi wages ORACLE [--words K] [--room B]\n", "1000", "`none K total SECONDS`", "A line that is no pair (or blank, "] {
        assert!(help.contains(part), "{part}");
    }
}
