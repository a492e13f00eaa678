//! How far a long reading is.

use crate::text::grouped;
use std::io::{self, IsTerminal, Write};
use std::time::{Duration, Instant};

/// Nothing is shown before this long.
const PATIENCE: Duration = Duration::from_secs(1);
/// A new line no sooner than this after the last.
const PAUSE: Duration = Duration::from_millis(100);

/// A line on standard error that says how far the work is: only where standard
/// error is a terminal, and only once it takes long.
pub struct Progress {
    what: &'static str,
    next: Option<Instant>,
    shown: bool,
}

impl Progress {
    /// Begins; `what` says what is counted.
    pub fn begin(what: &'static str) -> Progress {
        let next = io::stderr()
            .is_terminal()
            .then(|| Instant::now() + PATIENCE);
        Progress {
            what,
            next,
            shown: false,
        }
    }

    /// So many of so many are done.
    pub fn step(&mut self, done: usize, all: usize) {
        let now = Instant::now();
        if self.next.is_some_and(|next| now >= next) {
            self.next = Some(now + PAUSE);
            self.shown = true;
            let (done, all) = (grouped(done), grouped(all));
            let _ = write!(io::stderr(), "\r{} {done} of {all}", self.what);
        }
    }
}

/// The line goes away.
impl Drop for Progress {
    fn drop(&mut self) {
        if self.shown {
            let _ = write!(io::stderr(), "\r\x1B[K");
        }
    }
}
