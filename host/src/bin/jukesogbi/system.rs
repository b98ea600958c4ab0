//! The calls of the C library that std has none for: what happens on a signal, and whether there is a standard output. They are all here.

use std::ffi::{c_char, c_int, CString};
use std::os::unix::ffi::OsStrExt;
use std::path::Path;
use std::ptr;
use std::sync::atomic::{AtomicBool, AtomicPtr, Ordering};

const DEFAULT: usize = 0;
const IGNORED: usize = 1;

const HANG_UP: c_int = 1;
const INTERRUPT: c_int = 2;
const QUIT: c_int = 3;
const ABORT: c_int = 6;
const TERMINATE: c_int = 15;
const FILE_TOO_LARGE: c_int = 25;

const OUTPUT: c_int = 1;
const GET_FLAGS: c_int = 1;

extern "C" {
    fn fcntl(file: c_int, command: c_int, ...) -> c_int;
    fn signal(number: c_int, handler: usize) -> usize;
    fn raise(number: c_int) -> c_int;
    fn unlink(path: *const c_char) -> c_int;
    fn _exit(status: c_int) -> !;
}

/// The file that is being written, which goes if a signal ends the program; null where there is none.
static UNFINISHED: AtomicPtr<c_char> = AtomicPtr::new(ptr::null_mut());

/// Notes the file before it is made: what a signal removes is then this program's, or is not there yet.
pub fn note_unfinished(path: &Path) {
    // The path stays in memory, as a handler may be reading it. No name of a file has a zero byte.
    let path = CString::new(path.as_os_str().as_bytes()).map_or(ptr::null_mut(), CString::into_raw);
    UNFINISHED.store(path, Ordering::SeqCst);
}

pub fn forget_unfinished() {
    UNFINISHED.store(ptr::null_mut(), Ordering::SeqCst);
}

/// Called inside a handler, and so calls nothing but what may be called there: `unlink` may.
fn remove_unfinished() {
    let path = UNFINISHED.swap(ptr::null_mut(), Ordering::SeqCst);
    if !path.is_null() {
        unsafe { unlink(path) };
    }
}

/// The signal then does what it does by default, so that whoever waits for the program sees what ended it.
extern "C" fn end(number: c_int) {
    remove_unfinished();
    unsafe {
        signal(number, DEFAULT);
        raise(number);
    }
}

/// The runtime has said on standard error what it gives up on: a little memory that cannot be had, wherever that was asked for. The status is that of every
/// other failure.
extern "C" fn give_up(_: c_int) {
    remove_unfinished();
    unsafe { _exit(2) }
}

/// Signals that end the program remove the unfinished file; those that are ignored stay so. A file that grows too large is an error of the write.
pub fn prepare() {
    let handler = |f: extern "C" fn(c_int)| f as usize;
    unsafe {
        signal(FILE_TOO_LARGE, IGNORED);
        signal(ABORT, handler(give_up));
        for number in [HANG_UP, INTERRUPT, QUIT, TERMINATE] {
            if signal(number, handler(end)) == IGNORED {
                signal(number, IGNORED);
            }
        }
    }
}

/// Whether the program was begun without a standard output.
static NO_OUTPUT: AtomicBool = AtomicBool::new(false);

/// Looked at before Rust's own start, which puts /dev/null there: that would take everything.
extern "C" fn look() {
    NO_OUTPUT.store(unsafe { fcntl(OUTPUT, GET_FLAGS) } < 0, Ordering::SeqCst);
}

#[used]
#[link_section = ".init_array"]
static LOOK: extern "C" fn() = look;

pub fn no_output() -> bool {
    NO_OUTPUT.load(Ordering::SeqCst)
}
