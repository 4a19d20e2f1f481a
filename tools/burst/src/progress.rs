//! A line on standard error that says how far a long command is. It is shown
//! only where standard error is a terminal.

use std::io::{self, IsTerminal, Write};

/// From this many bytes of work on, a command counts as long.
const LONG: usize = 4 * 1_048_576;

/// Goes back to the front of the line and clears it.
const CLEAR: &str = "\r\x1b[K";

pub struct Progress {
    shown: bool,
}

impl Progress {
    /// For a command that goes over so many bytes.
    pub fn new(bytes: usize) -> Self {
        let shown = bytes >= LONG && io::stderr().is_terminal();
        Progress { shown }
    }

    /// Shows the text in place of the one before.
    pub fn say(&self, text: &str) {
        self.write(&format!("{CLEAR}{text}"));
    }

    /// A progress line that cannot be written is left out.
    fn write(&self, text: &str) {
        if self.shown {
            let _ = io::stderr().write_all(text.as_bytes());
        }
    }
}

impl Drop for Progress {
    fn drop(&mut self) {
        self.write(CLEAR);
    }
}

/// A count of bytes for a progress line.
pub fn megabytes(bytes: usize) -> String {
    format!("{:.1} MB", bytes as f64 / 1e6)
}
