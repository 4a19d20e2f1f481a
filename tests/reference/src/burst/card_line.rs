//! The card line (request N2): the files of full bursts are put on a card, one
//! behind the other, until no more fit.

use super::layout::{
    records_end, EDITION_2, LONGEST_PICTURE, MOST_SHOTS, SEAL_BYTES, SHORTEST_PICTURE,
};
use super::size_up::record;
use super::Entry;

/// How many full bursts a card holds, and the bytes that they leave.
#[derive(Clone, Copy, Debug, Default, PartialEq, Eq)]
pub struct CardLine {
    pub bursts: u64,
    pub left: u64,
}

/// Bursts whose pictures have so many bytes together, or fewer, are really
/// recorded.
const RECORDED: u64 = 1_024;

/// Where the file of a full burst ends, its pieces laid out one by one: header,
/// records, index, closing seal.
fn end_of_layout(shots: u64, picture: u64) -> u64 {
    let mut end = EDITION_2.header_bytes as u64;
    let mut entries = Vec::new();
    for shot in 1..=shots {
        let entry = Entry {
            shot: shot as u16,
            zero: 0,
            offset: end as u32,
            length: picture as u32,
        };
        end = entry.end();
        entries.push(entry);
    }
    assert_eq!(records_end(EDITION_2, &entries, shots), Some(end));
    let index = entries.iter().flat_map(Entry::to_bytes);
    end + index.count() as u64 + SEAL_BYTES as u64
}

/// The length of a full burst's file, all of its shots kept. A small burst is
/// recorded besides, and the total of its close is that length.
pub fn full_burst_length(shots: u64, picture: u64) -> u64 {
    let length = end_of_layout(shots, picture);
    if shots * picture <= RECORDED {
        let total = record(&vec![picture; shots as usize]);
        assert_eq!(total, length, "{shots} shots of {picture} bytes");
    }
    length
}

/// Runs of 2^63, 2^62, and so on down to one file, each put on the card if it
/// still fits.
fn fill(card: u64, length: u64) -> CardLine {
    let (card, length) = (u128::from(card), u128::from(length));
    let (mut bursts, mut used) = (0, 0);
    for run in (0..64).rev().map(|power| 1u128 << power) {
        if used + run * length <= card {
            bursts += run;
            used += run * length;
        }
    }
    CardLine {
        bursts: bursts.try_into().unwrap(),
        left: (card - used).try_into().unwrap(),
    }
}

/// The bursts on a card of so many bytes, or the refusal number. Order: 16, 10.
pub fn card_line(card: u64, shots: u64, picture: u64) -> Result<CardLine, u32> {
    if shots == 0 || shots > MOST_SHOTS as u64 {
        return Err(16);
    }
    if picture < SHORTEST_PICTURE as u64 || picture > LONGEST_PICTURE as u64 {
        return Err(10);
    }
    Ok(fill(card, full_burst_length(shots, picture)))
}
