//! The program over files and streams that are longer than any that is accepted (tests/reading.rs has the reading by itself).

mod common;

use common::program::{touched, Folder, LONGEST_ORACLE};
use common::reference::bytes_32;
use std::fs::OpenOptions;
use std::io::Write;
use std::os::unix::fs::FileExt;

/// A sparse file that begins so.
fn sparse(f: &Folder, name: &str, begin: &[u8], size: usize) {
    let file = OpenOptions::new().write(true).create(true).truncate(true).open(f.0.join(name)).unwrap();
    file.write_all_at(begin, 0).unwrap();
    file.set_len(size as u64).unwrap();
}

/// What is put to a body of Line.
const MORE: usize = 300_000_000;

/// Oracles and networks longer than any, by name and from a pipe.
#[test]
fn long_files_by_name_and_from_a_pipe() {
    let f = Folder::with_files("reading_long");
    let questions = ["audit", "time 0 1", "far 0 1", "list 0", "way 0 1", "block 0 1", "wages", "draw p.svg"];
    let call = |question: &str, name: &str| {
        let (command, rest) = question.split_once(' ').unwrap_or((question, ""));
        format!("{command} {name} {rest}")
    };
    // A long table; then one byte more; then another edition.
    let size = 149 + MORE;
    let mut begin = f.read("line.oracle");
    begin[61..65].copy_from_slice(&bytes_32(6 + MORE));
    sparse(&f, "table", &begin, size);
    sparse(&f, "behind", &begin, size + 1);
    begin[0] = 7;
    sparse(&f, "edition", &begin, size);
    questions.iter().for_each(|question| f.run(&call(question, "table")).is_refused(11));
    for (name, rule) in [("table", 11), ("behind", 2), ("edition", 1)] {
        f.run(&call("audit", name)).is_refused(rule);
        let pipe = f.shell(&format!("cat {name} | $J audit -"));
        assert_eq!((pipe.code, pipe.text()), (1, format!("refused {rule}\n")), "{}", pipe.err);
    }
    // A network with as many roads.
    let mut begin = f.read("line.net");
    begin[16..20].copy_from_slice(&bytes_32(16 + MORE));
    begin[21..25].copy_from_slice(&bytes_32(29 + 24 + 16 + MORE));
    sparse(&f, "roads", &begin, 29 + 24 + 16 + MORE);
    f.run("build roads 6 new").is_refused(5);
    f.run("audit roads").is_refused(1);
    assert!(!f.has("new") && !f.has("p.svg"));
}

/// A stream that never ends is refused for its beginning, or where it goes on behind the end that it claims.
#[test]
fn streams_without_an_end() {
    let f = Folder::with_files("reading_endless");
    for call in ["build /dev/zero 6 new", "audit /dev/zero", "time /dev/zero 0 1", "time /dev/zero", "listing /dev/zero", "draw /dev/zero p.svg"] {
        f.run(call).is_refused(1);
    }
    for call in ["build - 6 new", "audit -", "list - 0"] {
        f.shell(&format!("cat /dev/zero | $J {call}")).is_refused(1);
        f.shell(&format!("cat line.net line.oracle /dev/zero | $J {call}")).is_refused(if call.starts_with("build") { 2 } else { 1 });
    }
    f.shell("cat line.oracle /dev/zero | $J audit -").is_refused(2);
    let mut begin = f.read("line.oracle");
    begin[61..65].copy_from_slice(&bytes_32(300_000_000));
    f.write("claims", &begin);
    f.shell("cat claims /dev/zero | $J audit -").is_refused(2);
}

/// Never more memory than the largest file of the kind, read from a pipe that is kept open.
#[test]
fn no_more_memory_than_the_largest() {
    let f = Folder::with_files("reading_memory");
    // The contents claim a gigabyte, most of which is given.
    let mut begin = f.read("line.oracle");
    begin[61..65].copy_from_slice(&bytes_32(1_000_000_000));
    let most = |args: [&str; 4], begin: &[u8]| {
        let mut child = f.command(args.into_iter().filter(|a| !a.is_empty())).spawn().unwrap();
        let stdin = child.stdin.as_mut().unwrap();
        stdin.write_all(begin).unwrap();
        (0..250).for_each(|_| stdin.write_all(&[0; 1_000_000]).unwrap());
        let most = touched(&child);
        drop(child.stdin.take());
        assert_eq!(child.wait_with_output().unwrap().stdout, b"refused 2\n");
        most
    };
    let kilobytes = most(["audit", "-", "", ""], &begin);
    assert!(kilobytes < LONGEST_ORACLE / 1024 + 10_000, "{kilobytes} kB");
    let mut begin = f.read("line.net");
    begin[25..29].copy_from_slice(&bytes_32(1_000_000_000));
    let kilobytes = most(["build", "-", "6", "new"], &begin);
    assert!(kilobytes < 10_000, "{kilobytes} kB");
    // Nor is more asked for: what is left is the program itself.
    f.shell(&format!("cat line.oracle /dev/zero | (ulimit -v {}; exec $J audit -)", LONGEST_ORACLE / 1024 + 20_000)).is_refused(2);
}
