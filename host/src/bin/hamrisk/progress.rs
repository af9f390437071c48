//! How far the work on a large file is, on standard error if that is a terminal.

use std::io::{stderr, IsTerminal, Write};

/// Above how many bytes work is shown, and cut into pieces so that there is something to show.
pub const LARGE: usize = 64 << 20;

/// The bytes of a piece of large work, or a little fewer.
pub const PIECE: usize = 8 << 20;

/// One line that is written over itself, and wiped when the work ends.
pub struct Progress {
    what: &'static str,
    total: usize,
    done: usize,
    shown: bool,
}

impl Progress {
    pub fn new(what: &'static str, total: usize) -> Progress {
        Progress { what, total, done: 0, shown: total > LARGE && stderr().is_terminal() }
    }

    pub fn advance(&mut self, bytes: usize) {
        self.done += bytes;
        if self.shown {
            let percent = (self.done as u128 * 100 / self.total.max(1) as u128).min(100);
            self.write(&format!("{} {percent:3} % of {} MiB", self.what, self.total >> 20));
        }
    }

    /// Shows a line. That it cannot be shown is no reason to stop the work.
    fn write(&self, line: &str) {
        let mut terminal = stderr();
        let _ = write!(terminal, "\r{line}\x1b[K").and_then(|()| terminal.flush());
    }
}

impl Drop for Progress {
    fn drop(&mut self) {
        if self.shown {
            self.write("");
        }
    }
}
