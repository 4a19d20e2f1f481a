//! `burst card`: how many full bursts a card holds.

use crate::files;
use crate::library::{self, CardLine, Refused};
use crate::messages::{Failure, LENGTH_OF_EACH};
use crate::size::PICTURE_LENGTH;

/// `burst card`.
pub fn card(bytes: u64, shots: u64, picture: u64) -> Result<(), Failure> {
    let failure = |found: Refused| refused(found.number, shots, picture);
    let line = library::card_line(bytes, shots, picture).map_err(failure)?;
    // More than 60 shots are refused by now.
    let lengths = vec![picture; shots as usize];
    let each = library::size_up(&lengths).map_err(failure)?.bytes;
    let CardLine { bursts, left } = line;
    files::print(&format!(
        "bursts {bursts} bytes of each {each} bytes left {left}\n"
    ))
}

fn refused(number: u32, shots: u64, picture: u64) -> Failure {
    match number {
        PICTURE_LENGTH => Failure::Refused {
            number,
            about: format!("each is to have {picture}"),
            advice: LENGTH_OF_EACH,
        },
        _ => Failure::refused(number, format!("{shots} are asked for")),
    }
}
