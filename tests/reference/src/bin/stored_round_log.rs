//! Writes the log of P12 from the starting words, 13 states.

use std::io::{stdout, Write};

fn main() {
    let log = reference::round_log::stored_log();
    stdout().write_all(&log).unwrap();
}
