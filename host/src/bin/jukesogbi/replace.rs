//! Files that are written whole or not at all: beside their name first, then renamed. Whatever ends a write before that leaves the old file as it was,
//! and none beside it.

use crate::system;
use std::ffi::{OsStr, OsString};
use std::fs::{self, File, Metadata, OpenOptions};
use std::io::{self, ErrorKind, Write};
use std::os::unix::ffi::OsStrExt;
use std::os::unix::fs::{fchown, MetadataExt, OpenOptionsExt};
use std::path::{Path, PathBuf};

/// What is there and is no regular file (a device, a pipe) is written to as it is. A file that may not be written is not replaced either.
pub fn write(name: &Path, bytes: &[u8]) -> io::Result<()> {
    match OpenOptions::new().write(true).open(name) {
        Ok(mut there) => match there.metadata()? {
            old if old.is_file() => replace(&place(name)?, bytes, Some(&old)),
            _ => there.write_all(bytes),
        },
        Err(e) if e.kind() == ErrorKind::NotFound => replace(&place(name)?, bytes, None),
        Err(e) => Err(e),
    }
}

/// More links than a name may lead through.
const LINKS: usize = 64;

/// Where the file of this name stands, or would: a link stays, and what it leads to is written.
fn place(name: &Path) -> io::Result<PathBuf> {
    if name.as_os_str().as_bytes().ends_with(b"/") {
        return Err(ErrorKind::IsADirectory.into());
    }
    let mut place = name.to_path_buf();
    for _ in 0..LINKS {
        match fs::read_link(&place) {
            Ok(to) => place = folder(&place).join(to),
            Err(_) => return Ok(place),
        }
    }
    Err(io::Error::other("too many links"))
}

fn folder(place: &Path) -> &Path {
    place.parent().filter(|folder| !folder.as_os_str().is_empty()).unwrap_or(Path::new("."))
}

fn replace(place: &Path, bytes: &[u8], old: Option<&Metadata>) -> io::Result<()> {
    let mut beside = Beside::new(place, if old.is_some() { 0o600 } else { 0o666 })?;
    beside.file.write_all(bytes)?;
    if let Some(old) = old {
        // Whose it is, is kept where that may be; who may use it, always.
        let _ = fchown(&beside.file, Some(old.uid()), Some(old.gid()));
        beside.file.set_permissions(old.permissions())?;
    }
    beside.file.sync_all()?;
    beside.rename(place)?;
    // The name itself, where the file system can.
    let _ = File::open(folder(place)).and_then(|folder| folder.sync_all());
    Ok(())
}

/// A new file beside a place, which goes unless it is renamed.
struct Beside {
    file: File,
    path: PathBuf,
    renamed: bool,
}

/// How many names are tried.
const NAMES: usize = 100;

/// What is kept of the name, so that the longest name has one beside it too.
const KEPT: usize = 200;

fn name_beside(name: &OsStr, k: usize) -> OsString {
    let mut beside = OsString::from(".");
    beside.push(OsStr::from_bytes(&name.as_bytes()[..name.len().min(KEPT)]));
    beside.push(format!(".{}.{k}.tmp", std::process::id()));
    beside
}

impl Beside {
    fn new(place: &Path, mode: u32) -> io::Result<Beside> {
        let name = place.file_name().ok_or(ErrorKind::IsADirectory)?;
        let paths = (0..NAMES).map(|k| folder(place).join(name_beside(name, k)));
        for path in paths.filter(|path| fs::symlink_metadata(path).is_err()) {
            system::note_unfinished(&path);
            match OpenOptions::new().write(true).create_new(true).mode(mode).open(&path) {
                Ok(file) => return Ok(Beside { file, path, renamed: false }),
                Err(e) => {
                    system::forget_unfinished();
                    if e.kind() != ErrorKind::AlreadyExists {
                        return Err(e);
                    }
                }
            }
        }
        Err(ErrorKind::AlreadyExists.into())
    }

    fn rename(mut self, place: &Path) -> io::Result<()> {
        fs::rename(&self.path, place)?;
        self.renamed = true;
        Ok(())
    }
}

impl Drop for Beside {
    fn drop(&mut self) {
        if !self.renamed {
            let _ = fs::remove_file(&self.path);
        }
        system::forget_unfinished();
    }
}
