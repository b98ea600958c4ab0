//! The files that commands write: whole under their name or not at all, whatever ends the command.

mod common;

use common::networks;
use common::program::{finish, oracle, words, Folder};
use std::ffi::OsStr;
use std::fs::{self, Permissions};
use std::os::unix::ffi::OsStrExt;
use std::os::unix::fs::{chown, symlink, MetadataExt, PermissionsExt};
use std::os::unix::process::CommandExt;

/// Each command that writes a file, without the file's name; the folder has `line.net` and `line.oracle`.
const WRITERS: [&str; 3] = ["build line.net 6", "sample 60 2", "draw line.oracle"];

fn mode(f: &Folder, name: &str) -> u32 {
    fs::metadata(f.0.join(name)).unwrap().permissions().mode() & 0o7777
}

#[test]
fn an_older_file_is_replaced() {
    let f = Folder::with_files("replacing_older");
    let names = f.names();
    for writer in WRITERS {
        assert_eq!(f.run(&format!("{writer} new")).code, 0);
        let (new, number) = (f.read("new"), fs::metadata(f.0.join("new")).unwrap().ino());
        f.write("old", &vec![b'x'; 1_000_000]);
        let before = fs::metadata(f.0.join("old")).unwrap().ino();
        assert_eq!(f.run(&format!("{writer} old")).code, 0);
        assert_eq!(f.read("old"), new, "{writer}");
        let after = fs::metadata(f.0.join("old")).unwrap().ino();
        assert!(after != before && after != number, "{writer} has written over the old file");
        fs::remove_file(f.0.join("new")).unwrap();
        fs::remove_file(f.0.join("old")).unwrap();
        assert_eq!(f.names(), names, "{writer} has left a file");
    }
    // The demonstration's picture too.
    f.write("demo.svg", b"old");
    let before = fs::metadata(f.0.join("demo.svg")).unwrap().ino();
    assert_eq!(f.run("demo").code, 0);
    assert_ne!(fs::metadata(f.0.join("demo.svg")).unwrap().ino(), before);
    assert_eq!(f.names().len(), names.len() + 1);
}

#[test]
fn permissions_are_kept() {
    let f = Folder::with_files("replacing_permissions");
    for writer in WRITERS {
        for kept in [0o600, 0o640, 0o664, 0o755] {
            f.write("old", b"old");
            fs::set_permissions(f.0.join("old"), Permissions::from_mode(kept)).unwrap();
            assert_eq!(f.shell(&format!("umask 077; $J {writer} old")).code, 0);
            assert_eq!(mode(&f, "old"), kept);
        }
        // A new file has those that every program gives.
        for (mask, expected) in [("022", 0o644), ("027", 0o640), ("077", 0o600)] {
            assert_eq!(f.shell(&format!("rm -f new; umask {mask}; $J {writer} new")).code, 0);
            assert_eq!(mode(&f, "new"), expected);
        }
    }
}

/// Only root may give a file away, and so only root can keep another's.
#[test]
fn the_owner_is_kept() {
    let f = Folder::with_files("replacing_owner");
    f.write("old", b"old");
    if chown(f.0.join("old"), Some(65_534), Some(65_534)).is_ok() {
        f.run("build line.net 6 old").says("built 149 bytes, 1 transit\n");
        let there = fs::metadata(f.0.join("old")).unwrap();
        assert_eq!((there.uid(), there.gid(), there.len()), (65_534, 65_534, 149));
    }
}

/// A file that may not be written is not replaced. Everyone may write as root, so this runs as nobody then, where that is possible.
#[test]
fn a_file_that_may_not_be_written() {
    let f = Folder::with_files("replacing_read_only");
    f.write("old", b"old");
    fs::set_permissions(f.0.join("old"), Permissions::from_mode(0o444)).unwrap();
    fs::set_permissions(&f.0, Permissions::from_mode(0o777)).unwrap();
    let mut command = f.command(words("build line.net 6 old"));
    if fs::metadata("/proc/self").unwrap().uid() == 0 {
        command.uid(65_534);
    }
    if let Ok(child) = command.spawn() {
        finish(child, b"").does(2, "", "jukesogbi: cannot write old: Permission denied (os error 13)\n");
    }
    assert_eq!(f.read("old"), b"old");
}

// ---- Links, and what is no regular file ----

#[test]
fn links_are_written_through() {
    let f = Folder::with_files("replacing_links");
    fs::create_dir(f.0.join("far")).unwrap();
    f.write("far/old", b"old");
    for (to, link) in [("far/old", "link"), ("link", "second"), ("far/new", "dangling"), ("loop", "loop")] {
        symlink(to, f.0.join(link)).unwrap();
    }
    symlink("../second", f.0.join("far/back")).unwrap();
    symlink(f.0.join("far/absolute"), f.0.join("whole")).unwrap();
    let names = f.names();
    for (link, place) in [("link", "far/old"), ("second", "far/old"), ("far/back", "far/old"), ("dangling", "far/new"), ("whole", "far/absolute")] {
        f.run(&format!("build line.net 6 {link}")).says("built 149 bytes, 1 transit\n");
        assert!(fs::symlink_metadata(f.0.join(link)).unwrap().is_symlink(), "{link} is no link any more");
        assert!(fs::symlink_metadata(f.0.join(place)).unwrap().is_file());
        assert_eq!(f.read(place), f.read("line.oracle"));
        f.write(place, b"old");
    }
    f.run("build line.net 6 loop").is_wrong("cannot write loop: ");
    assert_eq!(f.names(), names);
    assert_eq!(Folder(f.0.join("far")).names(), ["absolute", "back", "new", "old"]);
}

#[test]
fn devices_and_pipes_are_written_as_they_are() {
    let f = Folder::with_files("replacing_devices");
    let full = "No space left on device (os error 28)\n";
    for writer in WRITERS {
        f.run(&format!("{writer} /dev/full")).does(2, "", &format!("jukesogbi: cannot write /dev/full: {full}"));
        assert_eq!(f.run(&format!("{writer} /dev/null")).code, 0);
        // What is written to standard output by its name is all that stands there; what is said goes to standard error.
        assert_eq!(f.run(&format!("{writer} new")).code, 0);
        for line in [format!("$J {writer} /dev/stdout | cat"), format!("$J {writer} /dev/stdout > out; cat out"), format!("$J {writer} out > out; cat out")] {
            let ran = f.shell(&line);
            assert_eq!((ran.code, ran.out, ran.err.lines().count()), (0, f.read("new"), 1), "{line}");
        }
        let ran = f.shell(&format!("rm -f out; (echo before; $J {writer} /dev/stdout; echo after) > out"));
        assert_eq!(f.read("out"), [b"before\n", &f.read("new")[..], b"after\n"].concat(), "{}", ran.err);
        // A named pipe.
        let ran = f.shell(&format!("rm -f pipe; mkfifo pipe; cat pipe > out & $J {writer} pipe && wait && test -p pipe && cat out"));
        let said = ran.out.iter().position(|&b| b == b'\n').unwrap() + 1;
        assert_eq!((ran.code, &ran.out[said..]), (0, &f.read("new")[..]), "{}", ran.err);
    }
    assert!(fs::metadata("/dev/null").unwrap().rdev() != 0 && f.names().iter().all(|name| !name.starts_with('.')));
}

// ---- Names ----

#[test]
fn names_that_are_long_or_no_text() {
    let f = Folder::with_files("replacing_names");
    for name in [vec![b'n'; 255], [&[b'n'; 198][..], "\u{20ac}".repeat(19).as_bytes()].concat(), b"\xff\xfe \n".to_vec(), b".".repeat(40), b"-x".to_vec()] {
        let name = OsStr::from_bytes(&name);
        let ran = finish(f.command([OsStr::new("build"), OsStr::new("line.net"), OsStr::new("6"), name]).spawn().unwrap(), b"");
        ran.says("built 149 bytes, 1 transit\n");
        assert_eq!(fs::read(f.0.join(name)).unwrap(), f.read("line.oracle"));
        // And it is read under its name.
        finish(f.command([OsStr::new("audit"), name]).spawn().unwrap(), b"").says("accepted\n");
        fs::remove_file(f.0.join(name)).unwrap();
    }
    assert_eq!(f.names().len(), 8);
}

/// The name beside is taken by somebody else: that file stays, and another name is used.
#[test]
fn a_name_that_is_taken() {
    let f = Folder::with_files("replacing_taken");
    let ran = f.shell("echo kept > .new.$$.0.tmp; ln -s nowhere .new.$$.1.tmp; exec $J build line.net 6 new");
    ran.says("built 149 bytes, 1 transit\n");
    assert_eq!(f.read("new"), f.read("line.oracle"));
    let hidden: Vec<String> = f.names().into_iter().filter(|name| name.starts_with('.')).collect();
    assert_eq!((hidden.len(), f.read(&hidden[0])), (2, b"kept\n".to_vec()));
}

// ---- Writes that fail ----

/// No file can be made in that folder, the folder is not there, the name is a folder's, or it is none.
#[test]
fn places_that_cannot_be_written() {
    let f = Folder::with_files("replacing_places");
    fs::create_dir(f.0.join("folder")).unwrap();
    let names = f.names();
    for writer in WRITERS {
        for (name, cause) in [
            ("/proc/new", "No such file or directory (os error 2)"),
            ("no/such/folder", "No such file or directory (os error 2)"),
            ("line.net/new", "Not a directory (os error 20)"),
            ("folder", "Is a directory (os error 21)"),
            ("folder/", "Is a directory (os error 21)"),
            (".", "Is a directory (os error 21)"),
            ("..", "Is a directory (os error 21)"),
            ("/", "Is a directory (os error 21)"),
            ("new/", "is a directory"),
            ("''", ""),
        ] {
            let shown = if name == "''" { "" } else { name };
            f.run(&format!("{writer} {name}")).is_wrong(&format!("cannot write {shown}: {cause}"));
        }
    }
    assert_eq!((f.names(), Folder(f.0.join("folder")).names()), (names, vec![]));
}

/// A limit on the size of files stands for a full disk: the signal that comes with it may end nothing, whether it was ignored before or not.
#[test]
fn a_file_that_grows_too_large() {
    let f = Folder::with_files("replacing_too_large");
    f.run("sample 300 2 roads.net");
    f.run("build roads.net 8 roads.oracle");
    f.write("old", b"old");
    let names = f.names();
    for before in ["", "trap '' XFSZ;"] {
        for writer in ["build roads.net 8", "sample 300 2", "draw roads.oracle"] {
            for name in ["old", "new"] {
                let ran = f.shell(&format!("{before} ulimit -f 2; exec $J {writer} {name}"));
                ran.does(2, "", &format!("jukesogbi: cannot write {name}: File too large (os error 27)\n"));
            }
        }
        let ran = f.shell(&format!("{before} ulimit -f 2; exec $J build roads.net 8 - > large"));
        ran.does(2, "", "jukesogbi: cannot write standard output: File too large (os error 27)\n");
        fs::remove_file(f.0.join("large")).unwrap();
        assert_eq!((f.read("old"), f.names()), (b"old".to_vec(), names.clone()));
    }
}

/// A refusal writes nothing, and leaves an older file as it was.
#[test]
fn refusals_leave_the_old_file() {
    let f = Folder::with_files("replacing_refused");
    f.write("old", b"old");
    let names = f.names();
    f.run("build line.net 65 old").is_refused(8);
    f.run("build line.net 6 old --room 148").is_refused(15);
    f.run("draw line.net old").is_refused(1);
    f.run("draw line.oracle old 0 3").is_refused(12);
    assert_eq!((f.read("old"), f.names()), (b"old".to_vec(), names));
    assert_eq!(f.read("line.oracle"), oracle(&networks::line(), 6));
}
