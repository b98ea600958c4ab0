//! The program's comparison of two oracles.

mod common;

use common::damaged;
use common::networks::{self, Plan};
use common::program::{oracle, Folder};

/// The lines of a comparison: pairs, slower, as quick, quicker, newly none, newly reachable, none in both; and the largest rise.
fn lines(counts: [u64; 7], largest: &str) -> String {
    let names = ["pairs", "slower", "as quick", "quicker", "newly none", "newly reachable", "none in both"];
    names.iter().zip(counts).map(|(name, count)| format!("{name} {count}\n")).collect::<String>() + &format!("largest rise {largest}\n")
}

#[test]
fn one_road_slower_under_another_grid() {
    let f = Folder::with_files("compare_slower");
    let mut line = networks::line();
    line.roads[0].2 += 5;
    f.write("slower.oracle", &oracle(&line, 2));
    f.run("compare line.oracle slower.oracle").says(&lines([9, 4, 5, 0, 0, 0, 0], "5 from 0 to 1"));
    f.run("compare slower.oracle line.oracle").says(&lines([9, 0, 5, 4, 0, 0, 0], "-"));
    // The other way round Fork is as quick; only 0 and 1 are farther apart.
    let mut fork = networks::fork();
    fork.roads[0].2 += 2;
    f.write("slower.oracle", &oracle(&fork, 64));
    f.run("compare fork.oracle slower.oracle").says(&lines([25, 2, 23, 0, 0, 0, 0], "2 from 0 to 1"));
}

#[test]
fn roads_left_out_and_put_in() {
    let f = Folder::with_files("compare_roads");
    f.run("compare fork.oracle without.oracle").says(&lines([25, 0, 17, 0, 8, 0, 0], "-"));
    f.run("compare without.oracle fork.oracle").says(&lines([25, 0, 17, 0, 0, 8, 0], "-"));
    f.run("compare without.oracle without.oracle").says(&lines([25, 0, 17, 0, 0, 0, 8], "-"));
    f.run("compare two.oracle two.oracle").says(&lines([36, 0, 18, 0, 0, 0, 18], "-"));
    f.write("one", &oracle(&networks::one_place(), 64));
    f.run("compare one one").says(&lines([1, 0, 1, 0, 0, 0, 0], "-"));
}

/// A time may be as long as it can get.
#[test]
fn a_large_rise() {
    let f = Folder::new("compare_large");
    let places = (0..100).map(|k| (k, 0)).collect();
    let chain = |seconds| Plan { roads: (0..99).map(|u| (u, u + 1, seconds)).collect(), places: Vec::clone(&places) };
    f.write("quick", &oracle(&chain(0), 1));
    f.write("slow", &oracle(&chain(100_000), 1));
    f.run("compare quick slow").says(&lines([10_000, 9_900, 100, 0, 0, 0, 0], "9900000 from 0 to 99"));
}

#[test]
fn other_numbers_of_places() {
    let f = Folder::with_files("compare_places");
    let differ = |a: &str, b: &str| format!("jukesogbi: {a} places and {b} places: only oracles with the same number of places are compared\n");
    f.run("compare line.oracle fork.oracle").does(2, "", &differ("line.oracle has 3", "fork.oracle has 5"));
    f.run_with("compare fork.oracle -", &f.read("line.oracle")).does(2, "", &differ("fork.oracle has 5", "standard input has 3"));
}

#[test]
fn from_standard_input() {
    let f = Folder::with_files("compare_streams");
    let same = lines([9, 0, 9, 0, 0, 0, 0], "-");
    f.run_with("compare - line.oracle", &f.read("line.oracle")).says(&same);
    f.run_with("compare line.oracle -", &f.read("line.oracle")).says(&same);
    f.run_with("compare - -", &f.read("line.oracle")).does(2, "", "jukesogbi: the first oracle and the second oracle cannot both come from standard input\n");
    f.run("compare none line.oracle").does(2, "", "jukesogbi: cannot read none: No such file or directory (os error 2)\n");
    f.run("compare line.oracle none").does(2, "", "jukesogbi: cannot read none: No such file or directory (os error 2)\n");
}

/// The one that is refused is named, the first where both are; and before their numbers of places.
#[test]
fn refused_oracles() {
    let f = Folder::with_files("compare_refused");
    for (rule, bytes) in damaged::forks() {
        f.write("broken", &bytes);
        for call in ["broken fork.oracle", "line.oracle broken", "broken line.net", "line.net broken"] {
            let ran = f.run(&format!("compare {call}"));
            let (name, rule) = if call.starts_with("line.net") { ("line.net", 1) } else { ("broken", rule) };
            assert_eq!((ran.code, ran.text()), (1, format!("refused {rule}\n")), "{call}");
            assert!(ran.err.starts_with(&format!("{name} is refused:\nrule {rule}: ")), "{call}: {}", ran.err);
        }
    }
    let ran = f.run("compare line.oracle line.net");
    assert!(ran.err.ends_with("this looks like a network: `jukesogbi build` makes an oracle of it\n"), "{}", ran.err);
    assert!(f.run_with("compare line.oracle -", b"").err.starts_with("standard input is refused:\nrule 1: "));
}

#[test]
fn its_help() {
    let help = Folder::new("compare_help").run("compare --help").text();
    for part in ["usage: jukesogbi compare ORACLE ORACLE\n", "one place twice included", "the same number of places", "none is slower by more than K"] {
        assert!(help.contains(part), "{part}");
    }
}
