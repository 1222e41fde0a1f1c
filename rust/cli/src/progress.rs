//! How far a check of many files has come, on a terminal.

use std::io::{self, IsTerminal, Write};

/// Fewer files are done before anybody reads this.
const MANY: usize = 50;

/// How many files are done between two lines that are shown.
const STEP: usize = 10;

/// Files done and all files. What is shown is gone when this is dropped.
pub struct Progress {
    done: usize,
    all: usize,
    shown: bool,
}

impl Progress {
    /// Of `all` files none is done. Nothing is shown where standard error is no terminal, or where there are few.
    pub fn of(all: usize) -> Progress {
        let shown = all >= MANY && io::stderr().is_terminal();
        Progress {
            done: 0,
            all,
            shown,
        }
    }

    /// One more file is done.
    pub fn step(&mut self) {
        self.done += 1;
        if self.shown && self.done.is_multiple_of(STEP) {
            show(&format!("\r{} of {}", self.done, self.all));
        }
    }
}

impl Drop for Progress {
    fn drop(&mut self) {
        if self.shown {
            // To the start of the line, which is emptied.
            show("\r\x1b[K");
        }
    }
}

/// Nothing is lost if it cannot be shown.
fn show(text: &str) {
    let _ = io::stderr().write_all(text.as_bytes());
}
