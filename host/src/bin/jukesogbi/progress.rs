//! Shows the time that passes while the core works. How far it has come, the core does not tell.

use std::io::{self, IsTerminal, Write};
use std::sync::mpsc::{self, Receiver, RecvTimeoutError, Sender};
use std::thread::{self, JoinHandle};
use std::time::{Duration, Instant};

/// Shows seconds on standard error, if that is a terminal, until it is dropped. Nothing else is to be printed meanwhile.
pub struct Clock(Option<(Sender<()>, JoinHandle<()>)>);

impl Clock {
    pub fn start(what: &'static str) -> Clock {
        if !io::stderr().is_terminal() {
            return Clock(None);
        }
        let (end, ended) = mpsc::channel();
        let shown = thread::Builder::new().spawn(move || show(what, &ended));
        Clock(shown.ok().map(|shown| (end, shown)))
    }
}

/// Nothing is ever sent: the wait ends at once when the other side is dropped.
fn show(what: &str, ended: &Receiver<()>) {
    let begun = Instant::now();
    let mut erase = "";
    while ended.recv_timeout(Duration::from_secs(1)) == Err(RecvTimeoutError::Timeout) {
        put(&format!("\r{what}: {} s ", begun.elapsed().as_secs()));
        erase = "\r\x1b[K";
    }
    put(erase);
}

fn put(text: &str) {
    let _ = io::stderr().write_all(text.as_bytes());
}

impl Drop for Clock {
    fn drop(&mut self) {
        if let Some((end, shown)) = self.0.take() {
            drop(end);
            let _ = shown.join();
        }
    }
}
