//! How far a run is, told while it goes on.

use crate::tally::grouped;
use crate::Until;
use std::io::{self, IsTerminal, Write};
use std::time::Duration;

/// How long nothing is told on a terminal, where a line goes over the one before,
/// and elsewhere, where it stands below.
const PAUSES: [Duration; 2] = [Duration::from_millis(500), Duration::from_secs(10)];

/// Tells on standard error how far a run is.
pub struct Progress {
    terminal: bool,
    /// When to tell next, from the start on.
    next: Duration,
}

impl Progress {
    /// Nothing was told so far.
    pub fn new() -> Progress {
        let terminal = io::stderr().is_terminal();
        Progress {
            terminal,
            next: pause(terminal),
        }
    }

    /// Tells after so many cases and so much time, where it is time to.
    pub fn tell(&mut self, until: &Until, cases: u64, elapsed: Duration) {
        if elapsed < self.next {
            return;
        }
        self.next = elapsed + pause(self.terminal);
        let line = line(until, cases, elapsed);
        // Whether somebody reads it does not matter.
        let mut out = io::stderr();
        let _ = match self.terminal {
            true => write!(out, "\r\x1B[K{line}").and_then(|()| out.flush()),
            false => writeln!(out, "{line}"),
        };
    }

    /// Takes the line away.
    pub fn end(&self) {
        if self.terminal {
            let _ = write!(io::stderr(), "\r\x1B[K");
        }
    }
}

/// How long nothing is told.
fn pause(terminal: bool) -> Duration {
    PAUSES[usize::from(!terminal)]
}

/// How far a run is.
fn line(until: &Until, cases: u64, elapsed: Duration) -> String {
    let (seconds, cases) = (elapsed.as_secs(), grouped(cases));
    match until {
        Until::Time(limit) => format!(
            "{seconds} of {} seconds: {cases} cases, no difference",
            limit.as_secs()
        ),
        Until::Cases(limit) => format!(
            "{seconds} seconds: {cases} of {} cases, no difference",
            grouped(*limit)
        ),
    }
}

#[cfg(test)]
mod tests {
    use super::*;

    #[test]
    fn a_line_says_how_far_it_is() {
        let elapsed = Duration::from_millis(12_700);
        let time = Until::Time(Duration::from_secs(60));
        let told = "12 of 60 seconds: 34,567 cases, no difference";
        assert_eq!(line(&time, 34_567, elapsed), told);
        let cases = Until::Cases(100_000);
        let told = "12 seconds: 34,567 of 100,000 cases, no difference";
        assert_eq!(line(&cases, 34_567, elapsed), told);
    }
}
