//! Standard output and standard error. A failure of the first is never taken for success, and one of the second ends nothing.

use crate::replace;
use crate::stop::{fault, Done, Stop};
use crate::system;
use std::ffi::OsStr;
use std::fmt::Display;
use std::fs::{self, File};
use std::io::{self, BufWriter, ErrorKind, StdoutLock, Write};
use std::os::fd::AsFd;
use std::os::unix::fs::MetadataExt;
use std::path::Path;

/// A line on standard error.
pub fn complain(text: impl Display) {
    let _ = writeln!(io::stderr(), "{text}");
}

pub struct Output(BufWriter<StdoutLock<'static>>);

fn failed(e: io::Error) -> Stop {
    Stop::Fault(format!("cannot write standard output: {e}"))
}

/// A list of lines has an end wherever its reader wants it.
fn line_failed(e: io::Error) -> Stop {
    if e.kind() == ErrorKind::BrokenPipe { Stop::Closed } else { failed(e) }
}

impl Output {
    pub fn standard() -> Output {
        Output(BufWriter::new(io::stdout().lock()))
    }

    /// There is one.
    fn there(&self) -> Done {
        if system::no_output() { fault("cannot write standard output: it is closed") } else { Ok(()) }
    }

    pub fn line(&mut self, text: impl Display) -> Done {
        self.there()?;
        writeln!(self.0, "{text}").map_err(line_failed)
    }

    /// A line that is to be seen at once.
    pub fn say(&mut self, text: impl Display) -> Done {
        self.line(text)?;
        self.flush()
    }

    pub fn flush(&mut self) -> Done {
        self.0.flush().map_err(line_failed)
    }

    /// A file's bytes, all of which must get through.
    fn bytes(&mut self, bytes: &[u8]) -> Done {
        self.there()?;
        self.0.write_all(bytes).and_then(|()| self.0.flush()).map_err(failed)
    }

    /// Lines that another function writes.
    pub fn lines<T>(&mut self, write: impl FnOnce(&mut dyn Write) -> io::Result<T>) -> Result<T, Stop> {
        self.there()?;
        write(&mut self.0).map_err(line_failed)
    }

    /// Writes a file under its name, and says what was done: on standard error where the file itself goes to standard output.
    pub fn deliver(&mut self, name: &OsStr, bytes: &[u8], report: &str) -> Done {
        if name == "-" || is_standard_output(Path::new(name)) {
            self.bytes(bytes)?;
            complain(report);
            return Ok(());
        }
        replace::write(Path::new(name), bytes).or_else(|e| fault(format!("cannot write {}: {e}", name.display())))?;
        self.line(report)
    }
}

/// Whether this name, as `/dev/stdout` may be, is that of what standard output goes to. Written by that name, the two would write over each other.
fn is_standard_output(name: &Path) -> bool {
    let standard = || File::from(io::stdout().as_fd().try_clone_to_owned().ok()?).metadata().ok();
    let same = || {
        let (there, standard) = (fs::metadata(name).ok()?, standard()?);
        Some((there.dev(), there.ino()) == (standard.dev(), standard.ino()))
    };
    same().unwrap_or(false)
}
