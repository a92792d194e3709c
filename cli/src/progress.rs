//! How far a long work is, on a terminal.

use crate::print::to_a_terminal;
use std::io::{self, IsTerminal, Write};
use std::time::{Duration, Instant};

/// When the first line is shown, and how often it changes.
const STEP: Duration = Duration::from_millis(500);

pub struct Progress {
    what: String,
    total: Option<usize>,
    next: Option<Instant>,
    shown: bool,
}

impl Progress {
    /// The total is not known of a stream.
    pub fn new(what: &str, total: Option<usize>) -> Progress {
        let next = io::stderr().is_terminal().then(|| Instant::now() + STEP);
        Progress { what: what.to_string(), total, next, shown: false }
    }

    /// Of work that prints as it goes: on a terminal that alone shows how far it is.
    pub fn of_printing(what: &str, total: usize) -> Progress {
        let mut progress = Progress::new(what, Some(total));
        progress.next = progress.next.filter(|_| !to_a_terminal());
        progress
    }

    /// So much of the total is done.
    pub fn at(&mut self, done: usize) {
        let Some(next) = self.next else { return };
        let now = Instant::now();
        if now >= next {
            let total = self.total.map_or(String::new(), |total| format!(" of {total}"));
            let _ = write!(io::stderr(), "\rhdf4: {}: {done}{total}", self.what);
            self.shown = true;
            self.next = Some(now + STEP);
        }
    }
}

impl Drop for Progress {
    fn drop(&mut self) {
        if self.shown {
            // Back to an empty line.
            let _ = write!(io::stderr(), "\r\x1b[K");
        }
    }
}
