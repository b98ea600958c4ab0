//! What is shown on a terminal: the time that passes while the core works, and the crates that the first build proves.

mod common;

use common::networks;
use common::program::{send, words, Folder, TERMINATE};
use common::terminal::Terminal;
use std::os::unix::fs::PermissionsExt;
use std::path::Path;
use std::process::{Command, Stdio};
use std::time::{Duration, Instant};

/// A command with standard error, and perhaps standard output, on a terminal. Hands back the status, what was shown, and the time that it took.
fn run(f: &Folder, args: &str, output: bool) -> (Option<i32>, String, Duration) {
    let terminal = Terminal::new();
    let mut command = f.command(words(args));
    command.stdin(Stdio::null()).stdout(if output { terminal.stream() } else { Stdio::null() }).stderr(terminal.stream());
    let begun = Instant::now();
    let status = command.status().unwrap();
    let took = begun.elapsed();
    drop(command);
    (status.code(), terminal.ended(), took)
}

/// A command on a terminal ends as soon as it is done.
#[test]
fn no_added_wait() {
    let f = Folder::with_files("terminal_wait");
    for call in ["build line.net 6 new", "audit line.oracle", "listing line.oracle", "build line.net 65 new"] {
        let least = (0..10).map(|_| run(&f, call, true).2).min().unwrap();
        assert!(least < Duration::from_millis(150), "{call} takes {least:?}");
    }
}

/// The seconds that a long call has taken, and none of the output among them.
#[test]
fn the_time_that_passes() {
    let f = Folder::new("terminal_time");
    f.write("net", &networks::dense().bytes());
    let terminal = Terminal::new();
    let mut command = f.command(words("build net 64 new"));
    let mut child = command.stdout(terminal.stream()).stderr(terminal.stream()).spawn().unwrap();
    drop(command);
    let begun = Instant::now();
    while !terminal.shown().contains("\rbuilding: 1 s ") {
        assert!(begun.elapsed() < Duration::from_secs(20) && child.try_wait().unwrap().is_none(), "{}", terminal.shown());
        std::thread::sleep(Duration::from_millis(20));
    }
    assert!(begun.elapsed() >= Duration::from_secs(1));
    send(&child, TERMINATE);
    child.wait().unwrap();
    assert!(terminal.ended().starts_with("\rbuilding: 1 s "));
}

/// Where the time was shown, it is gone before the result stands there.
#[test]
fn nothing_is_shown_among_the_lines() {
    let f = Folder::with_files("terminal_lines");
    f.run("sample 4096 1 net");
    let (status, shown, _) = run(&f, "build net 64 oracle", true);
    let (_, report) = shown.split_at(shown.rfind("built").unwrap());
    assert!(status == Some(0) && report.ends_with(" transit\r\n"), "{shown}");
    check_before(&shown[..shown.len() - report.len()], "building");
    let (status, shown, _) = run(&f, "audit oracle", true);
    assert_eq!(status, Some(0));
    check_before(shown.strip_suffix("accepted\r\n").unwrap(), "auditing");
    f.run("sample 2048 1 net");
    f.run("build net 16 oracle");
    let (status, shown, _) = run(&f, "compare oracle oracle", true);
    let (_, lines) = shown.split_at(shown.find("pairs").unwrap());
    assert!(status == Some(0) && lines.ends_with("largest rise -\r\n"), "{shown}");
    check_before(&shown[..shown.len() - lines.len()], "comparing");
    // Lines of output are all there is.
    let (_, shown, _) = run(&f, "listing line.oracle", true);
    assert_eq!(shown, "places 3 transit 1\r\n0 1 7 local\r\n0 2 16 far\r\n1 2 9 local\r\n");
    let (_, shown, _) = run(&f, "build line.net 65 new", true);
    assert_eq!(shown, "rule 8: a grid body not of 2 bytes, or g outside 1 to 64\r\nrefused 8\r\n");
}

/// Nothing, or seconds from 1 on that are wiped away.
fn check_before(shown: &str, what: &str) {
    let seconds = shown.matches(what).count();
    let expected: String = (1..=seconds).map(|s| format!("\r{what}: {s} s ")).collect();
    assert_eq!(shown, if seconds == 0 { String::new() } else { expected + "\r\x1b[K" });
}

// ---- The first build ----

/// A repository with a toolchain that proves nothing, slowly.
fn repository(name: &str, rt: &str) -> Folder {
    let f = Folder::new(name);
    for folder in ["crates/model", "crates/capi_c", "crates/opened_capi_c", "host", "bin"] {
        std::fs::create_dir_all(f.0.join(folder)).unwrap();
    }
    f.write("crates/model/source", b"");
    f.write("bin/rt", format!("#!/bin/sh\n{rt}\n").as_bytes());
    std::fs::set_permissions(f.0.join("bin/rt"), PermissionsExt::from_mode(0o755)).unwrap();
    let script = Path::new(env!("CARGO_MANIFEST_DIR")).join("build.rs");
    let mut rustc = Command::new(std::env::var_os("RUSTC").unwrap_or("rustc".into()));
    rustc.args(["--edition", "2021", "-o"]).arg(f.0.join("script")).arg(script).env("CARGO_MANIFEST_DIR", f.0.join("host"));
    assert!(rustc.status().unwrap().success());
    f
}

/// The build script as cargo runs it, its output kept, with a terminal beside.
fn build(f: &Folder, path: &Path) -> (std::process::Output, String) {
    let terminal = Terminal::new();
    let mut command = Command::new(f.0.join("script"));
    command.env("PATH", path).stdin(Stdio::null());
    terminal.control(&mut command);
    let done = command.output().unwrap();
    drop(command);
    (done, terminal.ended())
}

#[test]
fn the_first_build_shows_the_crate_that_it_proves() {
    let rt = "PATH=/usr/bin:/bin; this=$(basename $PWD); mkdir -p out ../../proved
        for name in model theory $this; do [ -e ../../proved/$name ] || { echo \"rt: chose --jobs 2 for $name\"; sleep 0.4; : > ../../proved/$name; sleep 0.4; }; done
        echo $* $this > out/lib$this.a";
    let f = repository("terminal_first_build", rt);
    let (done, shown) = build(&f, &f.0.join("bin"));
    assert!(done.status.success(), "{}", String::from_utf8_lossy(&done.stderr));
    for library in ["capi", "opened_capi"] {
        assert_eq!(f.read(&format!("target/staticlib/lib{library}.a")), format!("lib {library}_c\n").as_bytes());
    }
    let lines: Vec<&str> = shown.split_inclusive('\n').collect();
    let line = |what: &str| format!("\r\x1b[K     Proving {what}\r\n");
    let first = ["the core (`rt lib` in crates/capi_c; some minutes the first time)", "model", "theory", "capi_c"];
    let second = ["the core (`rt lib` in crates/opened_capi_c; some minutes the first time)", "opened_capi_c"];
    assert_eq!(lines, [&first[..], &second[..]].concat().into_iter().map(line).collect::<Vec<_>>());
    // What is made already is not made again, and nothing is shown.
    let (done, shown) = build(&f, &f.0.join("bin"));
    assert_eq!((done.status.success(), shown.as_str()), (true, ""));
    assert!(String::from_utf8_lossy(&done.stdout).contains("cargo:rustc-link-lib=static=capi"));
}

#[test]
fn a_first_build_that_fails() {
    let f = repository("terminal_no_build", "exit 3");
    let (done, _) = build(&f, &f.0.join("bin"));
    assert!(!done.status.success() && String::from_utf8_lossy(&done.stderr).contains("`rt lib` in crates/capi_c ended with exit status: 3"));
    let (done, shown) = build(&f, &f.0.join("host"));
    let text = String::from_utf8_lossy(&done.stderr);
    assert!(!done.status.success() && text.contains("`rt` comes with the Rattle toolchain, and has to be on the PATH"), "{text}");
    assert_eq!(shown, "");
}
