//! The calls of include/burst.h and include/card.h, with their answers taken apart.

use proved_calls::burst::{self, CHECK_INFO_BYTES, FETCH_INFO_BYTES, LIST_BYTES};
pub use proved_calls::burst::{ANSWER_BYTES, MAX_PICTURE_BYTES, MAX_SHOTS};
pub use proved_calls::burst::{CALL_CLOSE, CALL_DROP, CALL_KEEP};
pub use proved_calls::burst::{KEY_BYTES, SITE_MARK_BYTES, STAMP_BYTES};
pub use proved_calls::burst::{MIN_READ_BYTES, MIN_WRITTEN_BYTES};
use proved_calls::card;

/// An index entry.
pub const ENTRY_BYTES: usize = 12;
/// A sealed secret number and a tag: the closing seal, and what a record has
/// beside its picture.
pub const SEAL_BYTES: usize = 32;
/// A record and an index entry for each shot.
pub const MAX_FILE_BYTES: usize =
    MIN_WRITTEN_BYTES + MAX_SHOTS * (MAX_PICTURE_BYTES + SEAL_BYTES + ENTRY_BYTES);

/// A refusal's number; the mark says which tag differs under 7.
pub struct Refused {
    pub number: u32,
    pub mark: u32,
}

/// What check says of an accepted file. Camera number 0 is that of edition 1.
pub struct Checked {
    pub burst_number: u64,
    pub site_mark: [u8; SITE_MARK_BYTES],
    pub taken: u16,
    pub kept: u16,
    pub dropped: u16,
    pub camera: u32,
}

/// What fetch says of a picture.
pub struct Fetched {
    pub shot: u16,
    pub length: usize,
    pub stamp: [u8; STAMP_BYTES],
}

/// What a planned burst takes: the bytes of its file, and how often the
/// permutation runs.
pub struct Size {
    pub bytes: u64,
    pub p12: u64,
    pub p6: u64,
}

/// How many full bursts a card holds, and the bytes that they leave.
pub struct CardLine {
    pub bursts: u64,
    pub left: u64,
}

/// The `N` bytes from an offset on.
fn part<const N: usize>(bytes: &[u8], at: usize) -> [u8; N] {
    let mut part = [0; N];
    part.copy_from_slice(&bytes[at..at + N]);
    part
}

fn number_u16(bytes: &[u8], at: usize) -> u16 {
    u16::from_le_bytes(part(bytes, at))
}

fn number_u32(bytes: &[u8], at: usize) -> u32 {
    u32::from_le_bytes(part(bytes, at))
}

/// Begin and the calls of a script on a buffer: the count of answers written,
/// and whether the whole script was performed.
pub fn replay(
    key: &[u8],
    burst_number: u64,
    camera: u32,
    site_mark: &[u8],
    script: &[u8],
    buffer: &mut [u8],
    answers: &mut [u8],
) -> (usize, bool) {
    let mut whole = 0;
    let count = burst::replay(
        key,
        burst_number,
        camera,
        site_mark,
        script,
        buffer,
        answers,
        &mut whole,
    );
    (count, whole == 1)
}

/// Checks a whole file.
pub fn check(key: &[u8], file: &[u8]) -> Result<Checked, Refused> {
    let mut mark = 0;
    let mut info = [0; CHECK_INFO_BYTES];
    let number = burst::check(key, file, &mut mark, &mut info);
    if number != 0 {
        return Err(Refused { number, mark });
    }
    Ok(Checked {
        burst_number: u64::from_le_bytes(part(&info, 0)),
        site_mark: part(&info, 8),
        taken: number_u16(&info, 24),
        kept: number_u16(&info, 26),
        dropped: number_u16(&info, 28),
        camera: number_u32(&info, 30),
    })
}

/// Checks a whole file, then writes the picture of a place to `out`.
pub fn fetch(key: &[u8], file: &[u8], place: usize, out: &mut [u8]) -> Result<Fetched, Refused> {
    let mut mark = 0;
    let mut info = [0; FETCH_INFO_BYTES];
    let number = burst::fetch(key, file, place, out, &mut mark, &mut info);
    if number != 0 {
        return Err(Refused { number, mark });
    }
    Ok(Fetched {
        shot: number_u16(&info, 0),
        length: number_u32(&info, 2) as usize,
        stamp: part(&info, 6),
    })
}

/// What the lister prints for a file.
pub fn list(file: &[u8]) -> Result<Vec<u8>, Refused> {
    let mut length = 0;
    let mut text = vec![0; LIST_BYTES];
    let number = burst::list(file, &mut text, &mut length);
    if number != 0 {
        return Err(Refused { number, mark: 0 });
    }
    text.truncate(length as usize);
    Ok(text)
}

/// Sizes up a planned burst, a length for each shot and 0 for a dropped one.
pub fn size_up(lengths: &[u64]) -> Result<Size, Refused> {
    let (mut bytes, mut p12, mut p6) = (0, 0, 0);
    let number = burst::size_up(lengths, &mut bytes, &mut p12, &mut p6);
    if number != 0 {
        return Err(Refused { number, mark: 0 });
    }
    Ok(Size { bytes, p12, p6 })
}

/// Counts the full bursts that a card of so many bytes holds, each of so many
/// shots with pictures of one length.
pub fn card_line(card: u64, shots: u64, picture: u64) -> Result<CardLine, Refused> {
    let (mut bursts, mut left) = (0, 0);
    let number = card::card_line(card, shots, picture, &mut bursts, &mut left);
    if number != 0 {
        return Err(Refused { number, mark: 0 });
    }
    Ok(CardLine { bursts, left })
}
