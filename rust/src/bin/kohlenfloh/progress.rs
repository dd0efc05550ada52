//! One line on the terminal that says what is being done.
use std::io::{self, IsTerminal, Write};

/// Back to the first column, and the line made empty.
const CLEAR: &str = "\r\x1b[K";

/// The line, shown where standard error is a terminal, and cleared when this is dropped.
pub struct Progress {
    shown: bool,
}

impl Progress {
    /// Progress that shows nothing yet.
    pub fn start() -> Progress {
        Progress { shown: io::stderr().is_terminal() }
    }

    /// Shows what is being done.
    pub fn say(&self, words: &str) {
        if self.shown {
            // A line that cannot be shown is no reason to stop.
            let _ = write!(io::stderr(), "{CLEAR}{words}");
        }
    }

    /// Shows what is being done, and how much of it is.
    pub fn part(&self, words: &str, done: usize, all: usize) {
        self.say(&format!("{words}, {} %", 100 * done / all));
    }
}

impl Drop for Progress {
    fn drop(&mut self) {
        self.say("");
    }
}
