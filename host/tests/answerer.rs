//! `time`, `far` and `way` on pairs from standard input: one answer a line, each as it comes, whatever the lines hold.

mod common;

use common::program::{finish, touched, words, Folder};
use std::io::{BufRead, BufReader, Write};
use std::process::{Child, ChildStdin};
use std::sync::mpsc::{self, Receiver};
use std::time::Duration;

#[test]
fn an_answer_for_each_pair() {
    let f = Folder::with_files("answerer_pairs");
    f.run_with("time fork.oracle", b"0 4\n0 3\n\n  4\t0  \n1 1").says("11 3 far 4\n10 2 local 0\n11 3 far 4\n0 0 local 0\n");
    f.run_with("time fork.oracle", b"0 4\r\n \r\n4 0\r\n").says("11 3 far 4\n11 3 far 4\n");
    f.run_with("far fork.oracle", b"0 4\n4 0\n").says("11 3 far 4\n11 3 far 4\n");
    f.run_with("way fork.oracle", b"0 4\n3 3\n").says("0 1 3 4\n3\n");
    for command in ["time", "far", "way"] {
        f.run_with(&format!("{command} fork.oracle"), b"").says("");
        f.run_with(&format!("{command} -"), &f.read("fork.oracle")).is_wrong("the oracle and the pairs cannot both come from standard input");
    }
}

/// A refused pair has its own line, the others are still answered, and the status tells.
#[test]
fn refused_pairs() {
    let f = Folder::with_files("answerer_refused");
    f.run_with("far fork.oracle", b"0 4\n0 3\n\n0 5\n4 0\n").does(
        1,
        "11 3 far 4\nrefused 13\nrefused 12\n11 3 far 4\n",
        "line 2: 0 3: rule 13: the far question on a local pair\nline 4: 0 5: rule 12: a place number in the call not below N\n",
    );
    let short = "line 2: 0 2: rule 15: output shorter than the whole result\n";
    f.run_with("way line.oracle --room 5", b"0 1\n0 2\n1 2\n").does(1, "0 1\nrefused 15\n1 2\n", short);
}

/// A refused oracle ends the command, once, with no pair too; so do too few words.
#[test]
fn refused_oracles() {
    let f = Folder::with_files("answerer_oracles");
    let mut damaged = f.read("line.oracle");
    damaged[107] = 3;
    f.write("damaged", &damaged);
    for command in ["time", "far", "way"] {
        for input in [&b""[..], b"0 1\n", b"0 1\n1 2\n", b"no pair\n"] {
            f.run_with(&format!("{command} line.net"), input).is_refused(1);
            f.run_with(&format!("{command} damaged"), input).is_refused(9);
            if command != "far" {
                f.run_with(&format!("{command} line.oracle --words 23"), input).is_refused(14);
                f.run_with(&format!("{command} line.net --words 23"), input).is_refused(1);
            }
        }
    }
    f.run_with("time line.oracle --words 24", b"0 2\n").says("16 2 far 1\n");
    f.run_with("way line.oracle --words 24", b"0 2\n").says("0 1 2\n");
    // This question takes no words.
    f.run_with("far line.oracle --words 0", b"0 2\n").says("16 2 far 1\n");
    // The command ends while its input stays open.
    let mut child = f.command(words("time line.net")).spawn().unwrap();
    let stdin = child.stdin.take();
    assert_eq!(child.wait().unwrap().code(), Some(1));
    drop(stdin);
}

// ---- Lines that are no pair ----

/// Each such line is answered by `wrong`, its number and the cause go to standard error, and the rest goes on.
#[test]
fn wrong_lines() {
    let f = Folder::with_files("answerer_wrong");
    let no_pair = |text: &str| format!("`{text}` is no pair `S T` of numbers from 0 to 4294967295");
    for wrong in ["0", "0 1 2", "a b", "0 -1", "0 4294967296", "0;1", "0 1.5", "\u{b2} 1"] {
        let ran = f.run_with("time fork.oracle", format!("0 4\n\n{wrong}\n0 3\n").as_bytes());
        let shown: String = wrong.bytes().map(|b| b.escape_ascii().to_string()).collect();
        ran.does(2, "11 3 far 4\nwrong\n10 2 local 0\n", &format!("line 3: {}\n", no_pair(&shown)));
    }
    // A wrong line weighs more than a refused pair.
    let ran = f.run_with("far fork.oracle", b"x\n0 3\n0 4\n");
    assert_eq!((ran.code, ran.text().as_str(), ran.err.lines().count()), (2, "wrong\nrefused 13\n11 3 far 4\n", 2));
    // Bytes that are no text, control characters, and the last line without its end.
    f.run_with("way fork.oracle", b"0 \xff4\n0 4\n\x1b[2J\n0 4 0").does(
        2,
        "wrong\n0 1 3 4\nwrong\nwrong\n",
        &format!("line 1: {}\nline 3: {}\nline 4: {}\n", no_pair("0 \\xff4"), no_pair("\\x1b[2J"), no_pair("0 4 0")),
    );
    // Of a long line, the beginning is shown.
    let cause = format!("line 1: {}\n", no_pair(&("7".repeat(60) + "..")));
    f.run_with("time fork.oracle", format!("{}\n", "7".repeat(3000)).as_bytes()).does(2, "wrong\n", &cause);
}

#[test]
fn very_long_lines() {
    let f = Folder::with_files("answerer_long");
    let long = |size: usize| [b"0 4".to_vec(), vec![b' '; size - 3]].concat();
    let input = [&long(4096)[..], b"\n", &long(4097), b"\n", &long(1_000_000), b"\n4 0\n", &long(100_000)].concat();
    let ran = f.run_with("time fork.oracle", &input);
    let cause = |line: usize| format!("line {line}: longer than 4096 bytes\n");
    ran.does(2, "11 3 far 4\nwrong\nwrong\n11 3 far 4\nwrong\n", &[2, 3, 5].map(cause).concat());
    assert!(f.run("time --help").text().contains("longer than 4096 bytes"));
}

/// A line without an end takes no memory.
#[test]
fn a_line_without_an_end() {
    let f = Folder::with_files("answerer_endless");
    let mut child = f.command(words("time fork.oracle")).spawn().unwrap();
    let stdin = child.stdin.as_mut().unwrap();
    for _ in 0..1000 {
        stdin.write_all(&[b'1'; 100_000]).unwrap();
    }
    assert!(touched(&child) < 20_000, "{} kB", touched(&child));
    finish(child, b"\n0 4\n").does(2, "wrong\n11 3 far 4\n", "line 1: longer than 4096 bytes\n");
}

// ---- A conversation ----

/// A command that is held open. Its lines come through a channel, so that one that does not come is missed.
struct Talk {
    child: Child,
    to: ChildStdin,
    from: Receiver<String>,
}

impl Talk {
    fn with(f: &Folder, args: &str) -> Talk {
        let mut child = f.command(words(args)).spawn().unwrap();
        let (line, from) = mpsc::channel();
        let out = BufReader::new(child.stdout.take().unwrap());
        std::thread::spawn(move || out.lines().try_for_each(|text| line.send(text.unwrap() + "\n")));
        Talk { to: child.stdin.take().unwrap(), from, child }
    }

    fn tell(&mut self, text: &str) {
        self.to.write_all(text.as_bytes()).unwrap();
    }

    /// Waits for so many lines.
    fn hear(&mut self, count: usize) -> String {
        (0..count).map(|_| self.from.recv_timeout(Duration::from_secs(20)).expect("an answer in time")).collect()
    }

    /// Ends the input, and hands back the status and what else is said.
    fn end(mut self) -> (Option<i32>, String) {
        drop(self.to);
        (self.child.wait().unwrap().code(), self.from.iter().collect())
    }
}

#[test]
fn each_answer_as_it_comes() {
    let f = Folder::with_files("answerer_talk");
    for (command, [first, second, third]) in [
        ("time", ["11 3 far 4\n", "11 3 far 4\n", "refused 12\n"]),
        ("far", ["11 3 far 4\n", "11 3 far 4\n", "refused 12\n"]),
        ("way", ["0 1 3 4\n", "4 3 1 0\n", "refused 12\n"]),
    ] {
        let mut talk = Talk::with(&f, &format!("{command} fork.oracle"));
        for _ in 0..3 {
            talk.tell("0 4\n");
            assert_eq!(talk.hear(1), first);
        }
        // Half a line behind a whole one keeps nothing back.
        talk.tell("0 4\n4");
        assert_eq!(talk.hear(1), first);
        talk.tell(" 0\n\n0 9\nx\n");
        assert_eq!(talk.hear(3), [second, third, "wrong\n"].concat());
        // Many lines at once.
        talk.tell(&"4 0\n".repeat(5000));
        assert_eq!(talk.hear(5000), second.repeat(5000));
        assert_eq!(talk.end(), (Some(2), String::new()));
    }
}
