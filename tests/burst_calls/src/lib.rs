//! The C calls of the burst file, and what their tests share.

pub mod cards;
pub mod draft;
pub mod lent;
pub mod list;
pub mod listing;
pub mod page;
pub mod random_card;
pub mod random_front;
pub mod random_list;
pub mod random_read;
pub mod random_size;
pub mod reading;
pub mod recording;
pub mod script;
pub mod sizing;

use lent::LentNumber;
use proved_calls::{burst, card};
use reference::burst::reader::RecordPart;
use reference::burst::{CardLine, Size};

/// Begin and the calls of a script: the count of answers written, and the
/// number that says whether the whole script was performed.
pub fn replay(
    key: &[u8],
    burst_number: u64,
    camera: u32,
    site_mark: &[u8],
    script: &[u8],
    buffer: &mut [u8],
    answers: &mut [u8],
) -> (usize, u32) {
    let mut whole = LentNumber::default();
    let count = burst::replay(
        key,
        burst_number,
        camera,
        site_mark,
        script,
        buffer,
        answers,
        whole.lent(),
    );
    (count, whole.after())
}

/// Number and mark of checking a file.
pub fn check(key: &[u8], file: &[u8], info: &mut [u8]) -> (u32, u32) {
    let mut mark = LentNumber::default();
    let number = burst::check(key, file, mark.lent(), info);
    (number, mark.after())
}

/// Number and mark of fetching the picture of a place.
pub fn fetch(key: &[u8], file: &[u8], place: usize, out: &mut [u8], info: &mut [u8]) -> (u32, u32) {
    let mut mark = LentNumber::default();
    let number = burst::fetch(key, file, place, out, mark.lent(), info);
    (number, mark.after())
}

/// The sealed record of a place.
pub fn record(key: &[u8], file: &[u8], place: usize) -> RecordPart {
    let mut mark = LentNumber::default();
    let (mut offset, mut size) = (LentNumber::default(), LentNumber::default());
    let (at, length) = (offset.lent(), size.lent());
    let number = burst::record(key, file, place, mark.lent(), at, length);
    RecordPart {
        number,
        mark: mark.after(),
        offset: offset.after() as usize,
        length: size.after() as usize,
    }
}

/// Number, and the length of the text, of listing a file.
pub fn list_front(file: &[u8], text: &mut [u8]) -> (u32, u32) {
    let mut length = LentNumber::default();
    let number = burst::list(file, text, length.lent());
    (number, length.after())
}

/// Number, and the three numbers written, of sizing up a burst.
pub fn size_up(lengths: &[u64]) -> (u32, Size) {
    let mut file_length = LentNumber::default();
    let (mut p12, mut p6) = (LentNumber::default(), LentNumber::default());
    let number = burst::size_up(lengths, file_length.lent(), p12.lent(), p6.lent());
    let size = Size {
        file_length: file_length.after(),
        p12: p12.after(),
        p6: p6.after(),
    };
    (number, size)
}

/// Number, and the two numbers written, of filling a card with full bursts.
pub fn card_line(card: u64, shots: u64, picture: u64) -> (u32, CardLine) {
    let (mut bursts, mut left) = (LentNumber::default(), LentNumber::default());
    let number = card::card_line(card, shots, picture, bursts.lent(), left.lent());
    let line = CardLine {
        bursts: bursts.after(),
        left: left.after(),
    };
    (number, line)
}

/// An answer of the reference as such a call gives it: the number, and zeros
/// where it is refused.
pub fn told<T: Default>(answer: Result<T, u32>) -> (u32, T) {
    match answer {
        Ok(given) => (0, given),
        Err(number) => (number, T::default()),
    }
}
