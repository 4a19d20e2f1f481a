//! What the tests of the burst file have in common. None uses all of it.
#![allow(dead_code)]

use reference::burst::plain::{run, Call, PlainBurst};
use reference::burst::reader::{check, fetch, front, record, RecordPart};
use reference::burst::{Answer, Edition, Recorder, Refusal, EDITION_1, EDITION_2};
use reference::sealing::{bits, Variant};

pub const KEY: [u8; 16] = *b"sixteen key byte";
pub const SITE_MARK: [u8; 16] = *b"hollow oak, east";

/// Four bytes that differ, none of them 0.
pub const CAMERA: u32 = 0x0D0C_0B0A;

/// The editions, each with its picture offset.
pub const STARTS: [(Edition, usize); 2] = [(EDITION_1, 32), (EDITION_2, 40)];

/// A buffer length that no list here reaches.
pub const ROOM: usize = 1 << 40;

pub fn begin(burst_number: u64) -> Call {
    Call::Begin {
        key: KEY.to_vec(),
        burst_number,
        camera: CAMERA,
        site_mark: SITE_MARK.to_vec(),
    }
}

/// A list with another camera number.
pub fn with_camera(mut calls: Vec<Call>, number: u32) -> Vec<Call> {
    if let Call::Begin { camera, .. } = &mut calls[0] {
        *camera = number;
    }
    calls
}

/// Bytes that differ from one another and from one `seed` to another.
pub fn bytes(seed: usize, length: usize) -> Vec<u8> {
    (0..length).map(|i| (seed * 31 + i * 7) as u8).collect()
}

pub fn keep(seed: usize, length: usize) -> Call {
    Call::Keep {
        stamp: bytes(seed + 100, 16),
        picture: bytes(seed, length),
    }
}

/// Begin, then a keep for each length but a drop for 0, then close.
pub fn list_of(burst_number: u64, lengths: &[usize]) -> Vec<Call> {
    let shot = |(seed, length): (usize, &usize)| match *length {
        0 => Call::Drop,
        length => keep(seed, length),
    };
    let mut calls = vec![begin(burst_number)];
    calls.extend(lengths.iter().enumerate().map(shot));
    calls.push(Call::Close);
    calls
}

/// The file of `list_of`, by the plain burst.
pub fn file_of(edition: Edition, burst_number: u64, lengths: &[usize]) -> Vec<u8> {
    let outcome = run(edition, &list_of(burst_number, lengths), ROOM);
    outcome.file.unwrap()
}

/// A file whose shots have these lengths, 0 for a dropped one, with zeros for
/// all that is sealed. The camera number is 1.
pub fn unsealed(edition: Edition, lengths: &[usize]) -> Vec<u8> {
    let start = edition.header_bytes;
    let (mut index, mut end) = (Vec::new(), start);
    for (shot, length) in (1u16..).zip(lengths).filter(|(_, length)| **length > 0) {
        index.extend(shot.to_le_bytes());
        index.extend([0; 2]);
        index.extend((end as u32).to_le_bytes());
        index.extend((*length as u32).to_le_bytes());
        end += length + 32;
    }
    let (taken, kept) = (lengths.len(), index.len() / 12);
    let mut file = Vec::new();
    for count in [edition.number.into(), taken, kept, taken - kept] {
        file.extend((count as u16).to_le_bytes());
    }
    file.extend(7u64.to_le_bytes());
    let closing = end + index.len();
    for offset in [start, end, closing, closing + 32] {
        file.extend((offset as u32).to_le_bytes());
    }
    if edition.has_camera {
        file.extend([1, 0, 0, 0]);
    }
    file.resize(end, 0);
    file.extend(index);
    file.resize(closing + 32, 0);
    file
}

/// One seal of `list_of`, by the bit-level version. The camera number has bytes
/// 10 to 13 of the nonce, in edition 2 alone.
pub fn bit_seal(
    edition: Edition,
    burst_number: u64,
    shot: u8,
    secret: &[u8],
    ad: &[u8],
    msg: &[u8],
) -> Vec<u8> {
    let mut nonce = [0; 16];
    nonce[..8].copy_from_slice(&burst_number.to_le_bytes());
    nonce[8] = shot;
    if edition == EDITION_2 {
        nonce[10..14].copy_from_slice(&[0x0A, 0x0B, 0x0C, 0x0D]);
    }
    bits::seal(Variant::Icepole128, &KEY, &nonce, secret, ad, msg)
}

/// One call on a real recorder and buffer.
pub fn record_call(recorder: &mut Recorder, call: &Call, buffer: &mut [u8]) -> Answer {
    match call {
        Call::Begin {
            key,
            burst_number,
            camera,
            site_mark,
        } => {
            let (begun, answer) = Recorder::begin(key, *burst_number, *camera, site_mark, buffer);
            *recorder = begun;
            answer
        }
        Call::Keep { stamp, picture } => recorder.keep(stamp, picture, buffer),
        Call::Drop => recorder.drop_shot(),
        Call::Close => recorder.close(buffer),
    }
}

/// Number and mark of check; 0 and 0 when it accepts.
pub fn check_number(key: &[u8], file: &[u8]) -> (u32, u32) {
    let refused = |refusal: Refusal| (refusal.number, refusal.mark);
    check(key, file).map_or_else(refused, |_| (0, 0))
}

/// Check, and fetch and record at every place, give the list back: the
/// numbered pictures, and gaps for the shot numbers that no fetch returns.
pub fn assert_gives_back(burst: &PlainBurst, file: &[u8]) {
    let checked = check(&burst.key, file).unwrap();
    assert_eq!(front(file).unwrap().header.edition, burst.edition);
    assert_eq!(checked.burst_number, burst.burst_number);
    assert_eq!(checked.camera, burst.camera);
    assert_eq!(checked.site_mark, burst.site_mark);
    assert_eq!(checked.taken, burst.taken() as u64);
    assert_eq!(checked.kept, burst.kept() as u64);
    assert_eq!(checked.dropped, burst.dropped() as u64);

    let mut shots = vec![None; checked.taken as usize];
    for place in 0..checked.kept {
        let fetched = fetch(&burst.key, file, place, 1_048_576).unwrap();
        assert_eq!(fetched.length, fetched.picture.len() as u64);
        let shot = &mut shots[fetched.shot as usize - 1];
        assert_eq!(*shot, None, "shot {} twice", fetched.shot);
        *shot = Some((fetched.stamp, fetched.picture));
    }
    assert_eq!(shots, burst.shots);
    assert_no_such_place(&burst.key, file, checked.kept);
}

/// Fetch and record refuse some places from `kept` on with 13.
fn assert_no_such_place(key: &[u8], file: &[u8], kept: u64) {
    let refused = RecordPart {
        number: 13,
        mark: 0,
        offset: 0,
        length: 0,
    };
    for place in [kept, kept + 1, 60, 65_536, 1 << 32, u64::MAX] {
        let fetched = fetch(key, file, place, ROOM);
        assert_eq!(fetched, Err(Refusal::unmarked(13)), "place {place}");
        assert_eq!(record(key, file, place), refused, "place {place}");
    }
}

/// An unlucky buffer: no byte of it is zero.
pub fn buffer_of(length: usize) -> Vec<u8> {
    (0..length).map(|i| (i % 251) as u8 + 1).collect()
}
