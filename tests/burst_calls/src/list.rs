//! Lists of calls that tests write down by hand, and their files.

use reference::burst::plain::run;
use reference::burst::{Call, Edition, PlainBurst};

pub const KEY: [u8; 16] = *b"key of 16 bytes.";
pub const SITE_MARK: [u8; 16] = *b"the ford, west 3";

/// Four bytes that differ, none of them 0.
pub const CAMERA: u32 = 0x0D0C_0B0A;

/// Camera numbers of one byte and of more, and the last there is.
pub const CAMERAS: [u32; 8] = [1, 2, 255, 256, 1 << 16, 1 << 24, 1 << 31, u32::MAX];

/// A buffer length that no list here reaches.
pub const ROOM: usize = 1 << 40;

pub fn begin(burst_number: u64) -> Call {
    Call::Begin {
        key: KEY.to_vec(),
        burst_number,
        camera: CAMERA,
        site_mark: SITE_MARK.to_vec(),
    }
}

/// Bytes that differ from one another and from one `seed` to another.
pub fn bytes(seed: usize, length: usize) -> Vec<u8> {
    (0..length).map(|i| (seed * 37 + i * 11) as u8).collect()
}

pub fn keep(seed: usize, length: usize) -> Call {
    Call::Keep {
        stamp: bytes(seed + 100, 16),
        picture: bytes(seed, length),
    }
}

/// A keep for each length but a drop for 0, then close: a list without begin.
pub fn shots_of(lengths: &[usize]) -> Vec<Call> {
    let shot = |(seed, length): (usize, &usize)| match *length {
        0 => Call::Drop,
        length => keep(seed, length),
    };
    let mut calls: Vec<Call> = lengths.iter().enumerate().map(shot).collect();
    calls.push(Call::Close);
    calls
}

/// The burst of `shots_of`.
pub fn burst_of(edition: Edition, burst_number: u64, lengths: &[usize]) -> PlainBurst {
    let calls = [vec![begin(burst_number)], shots_of(lengths)].concat();
    let burst = run(edition, &calls, ROOM).burst;
    assert!(burst.closed && burst.taken() == lengths.len());
    burst
}

/// The file of `shots_of`.
pub fn file_of(edition: Edition, burst_number: u64, lengths: &[usize]) -> Vec<u8> {
    burst_of(edition, burst_number, lengths).file()
}
