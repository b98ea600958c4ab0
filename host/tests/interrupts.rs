//! Signals that end a command: the old file stays as it was, and none is left beside it.

mod common;

use common::networks;
use common::program::{send, words, Folder, HANG_UP, INTERRUPT, KILL, PROGRAM, TERMINATE};
use std::fs;
use std::os::unix::process::ExitStatusExt;
use std::process::{Child, Command, Stdio};
use std::time::Duration;

/// Waits until this holds, for some seconds.
fn wait_for(what: &str, mut holds: impl FnMut() -> bool) {
    for _ in 0..20_000 {
        if holds() {
            return;
        }
        std::thread::sleep(Duration::from_micros(500));
    }
    panic!("in vain: {what}");
}

fn start(f: &Folder, args: &str) -> Child {
    f.command(words(args)).spawn().unwrap()
}

/// Ended while it builds, the command leaves the old file, or none, and nothing else.
#[test]
fn ended_while_building() {
    let f = Folder::new("interrupts_building");
    f.write("net", &networks::dense().bytes());
    f.write("old", b"old");
    let names = f.names();
    for signal in [INTERRUPT, TERMINATE, HANG_UP, KILL] {
        for name in ["old", "new"] {
            let mut child = start(&f, &format!("build net 64 {name}"));
            std::thread::sleep(Duration::from_millis(150));
            assert!(child.try_wait().unwrap().is_none(), "the build is done already");
            send(&child, signal);
            assert_eq!(child.wait().unwrap().signal(), Some(signal));
            assert_eq!((f.read("old"), f.names()), (b"old".to_vec(), names.clone()));
        }
    }
}

/// Ended while it writes: the file that it writes goes too.
#[test]
fn ended_while_writing() {
    let f = Folder::new("interrupts_writing");
    f.write("net", &networks::chains().bytes());
    assert_eq!(f.run("build net 64 new").code, 0);
    let new = f.read("new");
    fs::remove_file(f.0.join("new")).unwrap();
    for signal in [INTERRUPT, TERMINATE, HANG_UP] {
        let mut met = false;
        // It may have written all before the signal comes. Then the new file is whole.
        for _ in 0..20 {
            f.write("old", b"old");
            let mut child = start(&f, "build net 64 old");
            let hidden = || f.names().iter().any(|name| name.starts_with(".old."));
            wait_for("a file beside the old one", || hidden() || child.try_wait().unwrap().is_some());
            let writing = hidden();
            if child.try_wait().unwrap().is_none() {
                send(&child, signal);
            }
            let status = child.wait().unwrap();
            assert_eq!(f.names(), ["net", "old"], "a file is left beside");
            if status.signal() == Some(signal) && writing && f.read("old") == b"old" {
                met = true;
                break;
            }
            assert!(f.read("old") == new, "the new file is not whole: {status}");
        }
        assert!(met, "no signal came while the file was written");
    }
}

/// A signal that was ignored before (as `nohup` has it) ends nothing.
#[test]
fn ignored_signals_stay_ignored() {
    let f = Folder::new("interrupts_ignored");
    f.write("net", &networks::chains().bytes());
    let mut shell = Command::new("sh");
    shell.args(["-c", "trap '' HUP; exec $J build net 64 new"]).env("J", PROGRAM).current_dir(&f.0).stdout(Stdio::null());
    let mut child = shell.spawn().unwrap();
    wait_for("the program", || fs::read(format!("/proc/{}/comm", child.id())).is_ok_and(|name| name == b"jukesogbi\n"));
    std::thread::sleep(Duration::from_millis(20));
    send(&child, HANG_UP);
    assert!(child.wait().unwrap().success());
    f.run("time new 0 512").says("5 1 far 2\n");
}
