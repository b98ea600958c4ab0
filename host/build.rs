//! Links the static libraries of the proved core, the entry points and the questions over an opened oracle, and has them made first where they are
//! missing or older than their sources.

use std::collections::HashSet;
use std::fs::{self, File, OpenOptions};
use std::io::{BufRead, BufReader, Write};
use std::path::{Path, PathBuf};
use std::process::{Command, ExitStatus, Stdio};
use std::time::SystemTime;

const LIBRARIES: [&str; 2] = ["capi", "opened_capi"];

/// What stands in a folder.
fn inside(folder: &Path) -> impl Iterator<Item = PathBuf> {
    fs::read_dir(folder).into_iter().flatten().flatten().map(|entry| entry.path())
}

/// What the crates are made of: all but what `rt` keeps in their folders `out`.
fn sources(crates: &Path) -> Vec<PathBuf> {
    inside(crates).flat_map(|folder| inside(&folder)).filter(|path| !path.ends_with("out")).collect()
}

/// The newest change of a file or under a folder.
fn newest(path: &Path) -> SystemTime {
    if path.is_dir() {
        return inside(path).map(|p| newest(&p)).max().unwrap_or(SystemTime::UNIX_EPOCH);
    }
    fs::metadata(path).and_then(|m| m.modified()).unwrap_or(SystemTime::UNIX_EPOCH)
}

/// The crate that `rt` begins to prove, if a line of its output says so.
fn begun(line: &str) -> Option<&str> {
    line.strip_prefix("rt: chose --jobs ")?.split_once(" for ").map(|(_, name)| name)
}

/// A line on the terminal, in the manner of cargo's own, in place of the one that cargo keeps there.
fn show(terminal: &mut Option<File>, verb: &str, what: &str) {
    if let Some(terminal) = terminal {
        let _ = terminal.write_all(format!("\r\x1b[K{verb:>12} {what}\n").as_bytes());
    }
}

/// Proves the crates and makes a library of the last, in its folder. Cargo shows nothing of what a build script prints, so the crate that is being proved is shown
/// on the terminal, if there is one.
fn make(command: &str, folder: &Path) -> std::io::Result<ExitStatus> {
    let mut terminal = OpenOptions::new().write(true).open("/dev/tty").ok();
    let mut rt = Command::new("rt").arg("lib").current_dir(folder).stdout(Stdio::piped()).spawn()?;
    show(&mut terminal, "Proving", &format!("the core ({command}; some minutes the first time)"));
    let mut shown = HashSet::new();
    for line in BufReader::new(rt.stdout.take().expect("it is piped")).split(b'\n') {
        let line = String::from_utf8_lossy(&line?).into_owned();
        println!("{line}");
        if let Some(name) = begun(&line) {
            if shown.insert(name.to_string()) {
                show(&mut terminal, "Proving", name);
            }
        }
    }
    rt.wait()
}

fn main() {
    let root = Path::new(env!("CARGO_MANIFEST_DIR")).parent().expect("the host stands inside the repository").to_path_buf();
    let (crates, made_in) = (root.join("crates"), root.join("target/staticlib"));
    let sources = sources(&crates);
    let changed = sources.iter().map(|path| newest(path)).max().unwrap_or(SystemTime::UNIX_EPOCH);
    for library in LIBRARIES {
        let file = made_in.join(format!("lib{library}.a"));
        let made = fs::metadata(&file).and_then(|m| m.modified()).unwrap_or(SystemTime::UNIX_EPOCH);
        if made < changed {
            let (name, command) = (format!("{library}_c"), format!("`rt lib` in crates/{library}_c"));
            match make(&command, &crates.join(&name)) {
                Ok(status) if status.success() => {}
                Ok(status) => panic!("{command} ended with {status}"),
                Err(e) => panic!("{command} could not be started: {e}. `rt` comes with the Rattle toolchain, and has to be on the PATH"),
            }
            fs::create_dir_all(&made_in).expect("a folder for the libraries");
            fs::copy(crates.join(&name).join(format!("out/lib{name}.a")), &file).expect("the library that `rt` made");
        }
        println!("cargo:rerun-if-changed={}", file.display());
        println!("cargo:rustc-link-lib=static={library}");
    }
    for path in sources {
        println!("cargo:rerun-if-changed={}", path.display());
    }
    println!("cargo:rustc-link-search=native={}", made_in.display());
}
