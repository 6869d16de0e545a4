//! A progress bar on standard error, on a terminal and for several files alone.

use std::io::{self, IsTerminal, Write};

const WIDTH: usize = 40;

pub struct Progress {
    total: usize,
    is_shown: bool,
}

impl Progress {
    pub fn of(total: usize) -> Progress {
        Progress { total, is_shown: total > 1 && io::stderr().is_terminal() }
    }

    /// Shows that so many are done.
    pub fn show(&self, done: usize) {
        if self.is_shown {
            let full = WIDTH * done / self.total;
            let (bar, rest) = ("#".repeat(full), " ".repeat(WIDTH - full));
            let _ = write!(io::stderr(), "\r[{bar}{rest}] {done}/{}", self.total);
            let _ = io::stderr().flush();
        }
    }

    /// Makes the line free for something else to be told.
    pub fn clear(&self) {
        if self.is_shown {
            let _ = write!(io::stderr(), "\r{}\r", " ".repeat(WIDTH + 24));
        }
    }
}
