//! How far long work has come: one line on a terminal, nothing elsewhere.
use std::io::{self, IsTerminal, Write};
use std::time::{Duration, Instant};

/// The least time between two lines.
const PAUSE: Duration = Duration::from_millis(100);

/// The line on standard error that says how far the work has come. It is erased when the work is done.
#[derive(Debug)]
pub struct Progress {
    is_terminal: bool,
    is_shown: bool,
    last: Instant,
}

impl Progress {
    /// Work that begins now.
    pub fn new() -> Progress {
        Progress { is_terminal: io::stderr().is_terminal(), is_shown: false, last: Instant::now() }
    }

    /// Shows a line in place of the one before, at most ten times a second. Nothing is shown of work that takes less time than that.
    pub fn show(&mut self, line: impl FnOnce() -> String) {
        if !self.is_terminal || self.last.elapsed() < PAUSE {
            return;
        }
        self.last = Instant::now();
        self.is_shown = true;
        let mut error = io::stderr();
        let _ = write!(error, "\r{}\x1b[K", line());
        let _ = error.flush();
    }

    /// Takes the line away.
    pub fn erase(&mut self) {
        if self.is_shown {
            self.is_shown = false;
            let _ = write!(io::stderr(), "\r\x1b[K");
        }
    }

    /// Says something that stays, on a terminal and elsewhere.
    pub fn note(&mut self, line: &str) {
        self.erase();
        crate::output::say(line);
    }
}

impl Default for Progress {
    fn default() -> Self {
        Progress::new()
    }
}

impl Drop for Progress {
    fn drop(&mut self) {
        self.erase();
    }
}
