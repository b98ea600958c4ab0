//! Running the program `jukesogbi`: folders for its files, what it did, and what std has no call for.

use super::networks::{self, Plan};
use super::reference;
use std::ffi::{c_int, OsStr};
use std::fs;
use std::io::Write;
use std::os::unix::process::ExitStatusExt;
use std::path::PathBuf;
use std::process::{Child, Command, Output, Stdio};

pub const PROGRAM: &str = env!("CARGO_BIN_EXE_jukesogbi");

/// The most bytes of an oracle, from document 01.
pub const LONGEST_ORACLE: usize = 2 + 7 * 9 + 4096 * 8 + 16_384 * 8 + 16_384 * 2 + 2 + 4096 * 2 + 4096 * (4 + 2 + 4096 * 8) + 6 * 4096 * 4096;

/// A folder of one test's own, in which its commands run.
pub struct Folder(pub PathBuf);

/// What a command did.
pub struct Ran {
    pub code: i32,
    pub out: Vec<u8>,
    pub err: String,
}

impl Ran {
    pub fn of(done: Output) -> Ran {
        let code = done.status.code().unwrap_or_else(|| panic!("ended by signal {:?}", done.status.signal()));
        Ran { code, out: done.stdout, err: String::from_utf8(done.stderr).expect("messages are text") }
    }

    pub fn text(&self) -> String {
        String::from_utf8(self.out.clone()).expect("the output is text")
    }

    /// Exit 0 with this on standard output and nothing on the other.
    pub fn says(&self, text: &str) {
        self.does(0, text, "");
    }

    /// This status, this on standard output, and this on standard error.
    pub fn does(&self, code: i32, out: &str, err: &str) {
        assert_eq!((self.code, self.text().as_str(), self.err.as_str()), (code, out, err));
    }

    /// Exit 1 with `refused N`, and on standard error what the rule says.
    pub fn is_refused(&self, rule: u32) {
        assert_eq!((self.code, self.text()), (1, format!("refused {rule}\n")), "{}", self.err);
        assert!(self.err.starts_with(&format!("rule {rule}: ")), "{}", self.err);
    }

    /// Exit 2 with nothing on standard output, and this in what standard error says.
    pub fn is_wrong(&self, part: &str) {
        assert_eq!((self.code, self.text().as_str()), (2, ""), "{}", self.err);
        assert!(self.err.starts_with("jukesogbi: ") && self.err.contains(part), "{} has no {part}", self.err);
    }
}

impl Folder {
    pub fn new(name: &str) -> Folder {
        let path = PathBuf::from(env!("CARGO_TARGET_TMPDIR")).join(name);
        let _ = fs::remove_dir_all(&path);
        fs::create_dir_all(&path).unwrap();
        Folder(path)
    }

    /// With the networks and oracles of Line, Fork, Fork without road 4, and the two lines, as `line.net`, `line.oracle` and so on.
    pub fn with_files(name: &str) -> Folder {
        let folder = Folder::new(name);
        for (name, plan) in
            [("line", networks::line()), ("fork", networks::fork()), ("without", networks::fork_without_4()), ("two", networks::two_lines())]
        {
            folder.write(&format!("{name}.net"), &plan.bytes());
            folder.write(&format!("{name}.oracle"), &oracle(&plan, 6));
        }
        folder
    }

    pub fn write(&self, name: &str, bytes: &[u8]) {
        fs::write(self.0.join(name), bytes).unwrap();
    }

    pub fn read(&self, name: &str) -> Vec<u8> {
        fs::read(self.0.join(name)).unwrap()
    }

    pub fn has(&self, name: &str) -> bool {
        self.0.join(name).exists()
    }

    /// The names of all files, hidden ones too.
    pub fn names(&self) -> Vec<String> {
        let mut names: Vec<String> = fs::read_dir(&self.0).unwrap().map(|e| e.unwrap().file_name().to_string_lossy().into_owned()).collect();
        names.sort();
        names
    }

    /// The program with these arguments, all its streams piped.
    pub fn command<S: AsRef<OsStr>>(&self, args: impl IntoIterator<Item = S>) -> Command {
        let mut command = Command::new(PROGRAM);
        command.args(args).current_dir(&self.0).stdin(Stdio::piped()).stdout(Stdio::piped()).stderr(Stdio::piped());
        command
    }

    /// Runs the program with these arguments, parted by blanks; '' is an empty one.
    pub fn run(&self, args: &str) -> Ran {
        self.run_with(args, b"")
    }

    pub fn run_with(&self, args: &str, input: &[u8]) -> Ran {
        finish(self.command(words(args)).spawn().unwrap(), input)
    }

    /// Runs a line of the shell, in which $J is the program.
    pub fn shell(&self, line: &str) -> Ran {
        let mut shell = Command::new("sh");
        shell.args(["-c", line]).env("J", PROGRAM).current_dir(&self.0).stdin(Stdio::null());
        Ran::of(shell.output().unwrap())
    }
}

/// Arguments parted by blanks; '' is an empty one.
pub fn words(args: &str) -> impl Iterator<Item = &str> {
    args.split_whitespace().map(|a| if a == "''" { "" } else { a })
}

/// Writes this to a child's input, ends that, and waits for the child.
pub fn finish(mut child: Child, input: &[u8]) -> Ran {
    let mut stdin = child.stdin.take().unwrap();
    let input = input.to_vec();
    // A command that does not read its input may end before all of it is written.
    let writer = std::thread::spawn(move || drop(stdin.write_all(&input)));
    let done = child.wait_with_output().unwrap();
    writer.join().unwrap();
    Ran::of(done)
}

pub fn oracle(plan: &Plan, g: u32) -> Vec<u8> {
    reference::Network::of(plan.bytes()).oracle(g).bytes.clone()
}

// ---- What std has no call for ----

pub const HANG_UP: c_int = 1;
pub const INTERRUPT: c_int = 2;
pub const KILL: c_int = 9;
pub const TERMINATE: c_int = 15;

extern "C" {
    fn kill(process: c_int, number: c_int) -> c_int;
}

/// Sends a signal to a child that has not been waited for.
pub fn send(child: &Child, number: c_int) {
    assert_eq!(unsafe { kill(child.id() as c_int, number) }, 0);
}

/// The most memory that a running child has touched so far, in kilobytes.
pub fn touched(child: &Child) -> usize {
    let status = fs::read_to_string(format!("/proc/{}/status", child.id())).unwrap();
    let line = status.lines().find_map(|line| line.strip_prefix("VmHWM:")).expect("the child is running");
    line.trim().trim_end_matches(" kB").parse().unwrap()
}
