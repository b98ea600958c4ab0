//! What the header says around the calls, tried by a C program (tests/c/interface.c): the file's form, room enough, null pointers, threads, and the stack
//! of each call, on the largest network and its longest way in a thread of 64 KB.

use jukesogbi::{core, files, form, sample, sheet};
use std::path::Path;
use std::process::Command;

const HEADER: &str = include_str!("../../include/jukesogbi.h");

/// Compiles a C program against the header and the library of the entry points alone, and gives what it prints.
fn output_of(source: &Path, program: &str) -> String {
    let root = Path::new(env!("CARGO_MANIFEST_DIR")).parent().unwrap();
    let program = Path::new(env!("CARGO_TARGET_TMPDIR")).join(program);
    let mut cc = Command::new("cc");
    cc.args(["-std=c11", "-O1", "-Wall", "-Wextra", "-Werror", "-pedantic", "-pthread", "-I"]).arg(root.join("include"));
    cc.arg(source).arg(root.join("target/staticlib/libcapi.a")).arg("-o").arg(&program);
    let compiled = cc.output().expect("there is a C compiler");
    assert!(compiled.status.success(), "{}", String::from_utf8_lossy(&compiled.stderr));
    let run = Command::new(&program).output().unwrap();
    let text = String::from_utf8(run.stdout).unwrap();
    assert!(run.status.success(), "{} {text}", run.status);
    text
}

/// The most stack that the header allows a call.
fn allowed(call: &str) -> usize {
    let (text, bytes) = match call {
        "way" | "way_under" => ("jukesogbi_way and jukesogbi_way_under take at most 12,288", 12_288),
        "block" => ("jukesogbi_block 8,192", 8_192),
        _ => ("every other call 2,048", 2_048),
    };
    assert!(HEADER.contains(text), "{text}");
    bytes
}

#[test]
fn a_c_program_finds_what_the_header_says() {
    let text = output_of(Path::new("tests/c/interface.c"), "interface");
    let mut lines = text.lines();
    assert_eq!(lines.next(), Some("N 4096 R 4095 T 59"));
    let n = form::MAX_NODES / 2;
    for roads in (0..=form::MAX_EDGES).step_by(1024) {
        let bodies = form::NODE_SIZE * n + form::EDGE_SIZE * roads;
        assert_eq!(lines.next(), Some(format!("room {}", files::room(n, roads, bodies)).as_str()));
    }
    for expected in ["null pointers", "threads 8", "sheets", "wages", "converter"] {
        assert_eq!(lines.next(), Some(expected));
    }
    let mut calls = Vec::new();
    for line in lines {
        let words: Vec<&str> = line.split(' ').collect();
        let [_, call, bytes] = words[..] else { panic!("{line}") };
        assert!((100..=allowed(call)).contains(&bytes.parse().unwrap()), "{line}");
        calls.push(call);
    }
    assert_eq!(calls, ["build", "audit", "time", "far", "list", "way", "block", "time_under", "way_under", "wages", "convert", "convert_sheet"]);
}

/// In Rust too, from an opened oracle: a thread of 64 KB.
#[test]
fn the_longest_way_in_a_small_thread() {
    let mut net = sample::network(1, 1);
    net.nodes = (0..form::MAX_NODES as i32).map(|i| (100 * i, 0)).collect();
    net.edges = (1..form::MAX_NODES as u16).map(|i| files::Edge { first: i - 1, second: i, seconds: 3 }).collect();
    let network = net.to_bytes();
    let mut work = vec![0; files::words_needed(&network)];
    let mut out = vec![0; files::most_room(&network)];
    let built = core::build(&network, 64, &mut work, &mut out).unwrap();
    let mut oracle = jukesogbi::oracle::Oracle::open(&out[..built.size]).unwrap();
    let mut nodes = vec![0; form::NUMBER_SIZE * form::MAX_NODES];
    let last = form::MAX_NODES as u32 - 1;
    std::thread::scope(|scope| {
        let small = std::thread::Builder::new().stack_size(64 * 1024);
        let asked = small.spawn_scoped(scope, || oracle.way(0, last, &mut nodes)).unwrap();
        assert_eq!(asked.join().unwrap(), Ok(form::MAX_NODES));
    });
    assert_eq!(files::numbers(&nodes), (0..=last as u16).collect::<Vec<u16>>());
    // Under a sheet that delays each of its roads too.
    let sheet = sheet::of((0..last as u16).map(|road| sheet::Line::Delayed(road, 2)));
    std::thread::scope(|scope| {
        let small = std::thread::Builder::new().stack_size(64 * 1024);
        let asked = small.spawn_scoped(scope, || (oracle.time_under(&sheet, 0, last), oracle.way_under(&sheet, 0, last, &mut nodes))).unwrap();
        let time = core::Answer { time: core::Time::of(5 * last, last), kind: core::Kind::Local, pairs: 0 };
        assert_eq!(asked.join().unwrap(), (Ok(time), Ok(form::MAX_NODES)));
    });
}

/// The calls that ask something of the caller are no part of the C interface.
#[test]
fn the_entry_points_alone() {
    assert!(!HEADER.contains("jukesogbi_open"), "a call over an opened oracle");
    let root = Path::new(env!("CARGO_MANIFEST_DIR")).parent().unwrap();
    let symbols = Command::new("nm").arg("--defined-only").arg(root.join("target/staticlib/libcapi.a")).output().expect("there is nm");
    let text = String::from_utf8(symbols.stdout).unwrap();
    let mut exported: Vec<&str> = text.lines().filter_map(|line| line.split_once(" T ")).map(|(_, name)| name).collect();
    exported.sort_unstable();
    let names = ["audit", "block", "build", "convert", "convert_sheet", "far", "list", "list_rule", "time", "time_under", "wages", "way", "way_under"];
    let calls = names.map(|name| format!("jukesogbi_{name}"));
    assert_eq!(exported, calls);
    for call in calls {
        assert!(HEADER.contains(&format!("{call}(")), "{call} is not declared");
    }
}
