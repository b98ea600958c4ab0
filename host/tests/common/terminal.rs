//! A terminal of a test's own, for which std has no calls.

use std::ffi::{c_char, c_int, c_ulong, CStr};
use std::fs::{File, OpenOptions};
use std::io::Read;
use std::os::fd::{AsRawFd, FromRawFd};
use std::os::unix::process::CommandExt;
use std::process::{Command, Stdio};
use std::sync::{Arc, Mutex};
use std::thread::JoinHandle;

extern "C" {
    fn posix_openpt(flags: c_int) -> c_int;
    fn grantpt(file: c_int) -> c_int;
    fn unlockpt(file: c_int) -> c_int;
    fn ptsname_r(file: c_int, name: *mut c_char, size: usize) -> c_int;
    fn setsid() -> c_int;
    fn ioctl(file: c_int, request: c_ulong, argument: c_int) -> c_int;
}

/// For reading and writing, not for this process itself, and closed in children.
const FLAGS: c_int = 0o2 | 0o400 | 0o2_000_000;

/// Makes a terminal that of a session.
const CONTROL: c_ulong = 0x540e;

/// What is shown on it is gathered as it comes.
pub struct Terminal {
    inside: File,
    shown: Arc<Mutex<Vec<u8>>>,
    reader: JoinHandle<()>,
}

impl Terminal {
    pub fn new() -> Terminal {
        let mut name = [0; 64];
        let (mut outside, name) = unsafe {
            let file = posix_openpt(FLAGS);
            assert!(file >= 0 && grantpt(file) == 0 && unlockpt(file) == 0, "there is no terminal to be had");
            assert_eq!(ptsname_r(file, name.as_mut_ptr(), name.len()), 0);
            (File::from_raw_fd(file), CStr::from_ptr(name.as_ptr()).to_str().unwrap())
        };
        let inside = OpenOptions::new().read(true).write(true).open(name).unwrap();
        let shown = Arc::new(Mutex::new(Vec::new()));
        let gathered = shown.clone();
        let reader = std::thread::spawn(move || {
            let mut part = [0; 4096];
            // The read fails when nobody has the terminal open any more.
            while let Ok(size) = outside.read(&mut part) {
                gathered.lock().unwrap().extend(&part[..size]);
            }
        });
        Terminal { inside, shown, reader }
    }

    pub fn stream(&self) -> Stdio {
        self.inside.try_clone().unwrap().into()
    }

    /// Makes it the one that a command finds as `/dev/tty`.
    pub fn control(&self, command: &mut Command) {
        let file = self.inside.as_raw_fd();
        unsafe {
            command.pre_exec(move || {
                if setsid() < 0 || ioctl(file, CONTROL, 0) < 0 {
                    return Err(std::io::Error::last_os_error());
                }
                Ok(())
            });
        }
    }

    /// What is there so far.
    pub fn shown(&self) -> String {
        String::from_utf8(self.shown.lock().unwrap().clone()).unwrap()
    }

    /// All of it, when the commands on it have ended and are dropped.
    pub fn ended(self) -> String {
        drop(self.inside);
        self.reader.join().unwrap();
        let shown = self.shown.lock().unwrap().clone();
        String::from_utf8(shown).unwrap()
    }
}
