//! Sizing up a planned burst (request N4): the burst is really recorded, with
//! zeros for pictures, and the calls of the permutation are counted meanwhile.
//!
//! What is counted is one sealing of each record and of the closing seal: in
//! `sealing::words`, by which the recorder seals, P12 runs once in a seal and P6
//! once after each block.

use super::layout::{KEY_BYTES, LONGEST_PICTURE, MOST_SHOTS, STAMP_BYTES};
use super::{Answer, Recorder};
use crate::permutation::calls::counted;

/// Room for the longest file, 62,917,272 bytes.
const ROOM: usize = 64 << 20;

/// What recording a burst uses, its closing seal included.
#[derive(Clone, Copy, Debug, Default, PartialEq, Eq)]
pub struct Size {
    pub file_length: u64,
    pub p12: u64,
    pub p6: u64,
}

/// Begin, a keep for each length but a drop for 0, and close: the total.
pub fn record(lengths: &[u64]) -> u64 {
    let mut buffer = vec![0; ROOM];
    let (key, stamp) = ([0; KEY_BYTES], [0; STAMP_BYTES]);
    let (mut recorder, begun) = Recorder::begin(&key, 1, 1, &stamp, &mut buffer);
    assert_eq!(begun, Answer::accepted(0));
    for (before, length) in lengths.iter().enumerate() {
        let answer = match *length as usize {
            0 => recorder.drop_shot(),
            length => recorder.keep(&stamp, &vec![0; length], &mut buffer),
        };
        assert_eq!(answer, Answer::accepted(before as u64 + 1));
    }
    let closed = recorder.close(&mut buffer);
    assert_eq!(closed.number, 0);
    closed.shot_or_total
}

/// The size of a burst with these picture lengths, 0 for a dropped shot, or the
/// refusal number. Order: 9, 10.
pub fn size_up(lengths: &[u64]) -> Result<Size, u32> {
    if lengths.len() > MOST_SHOTS {
        return Err(9);
    }
    if lengths
        .iter()
        .any(|length| *length > LONGEST_PICTURE as u64)
    {
        return Err(10);
    }
    let (file_length, calls) = counted(|| record(lengths));
    Ok(Size {
        file_length,
        p12: calls.p12,
        p6: calls.p6,
    })
}
