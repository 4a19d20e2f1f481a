//! One random read of a file that may be damaged, by check, fetch, record and
//! list.

use crate::list::{burst_of, bytes, KEY};
use crate::listing::{check_list, LIST_BYTES};
use crate::random_list::{camera_or_0, one_of};
use crate::reading::{check_check, check_fetch, check_record, CHECK_INFO, FETCH_INFO};
use reference::burst::lister::list;
use reference::burst::EDITIONS;
use reference::random::SplitMix64;

/// The number itself, one less, one more, or anything below 100.
fn around(generator: &mut SplitMix64, number: usize) -> usize {
    match generator.below(8) {
        0 => number.saturating_sub(1),
        1 => number + 1,
        2 => generator.below(100),
        3 => 0,
        _ => number,
    }
}

/// Bytes changed, bytes cut off or put on, or parts of another file put in.
fn spoil(generator: &mut SplitMix64, file: &mut Vec<u8>, other: &[u8]) {
    match generator.below(6) {
        0 => {
            for _ in 0..=generator.below(3) {
                let at = generator.below(file.len());
                file[at] ^= 1 << generator.below(8);
            }
        }
        1 => {
            let length = match generator.below(3) {
                0 => generator.below(file.len()),
                1 => file.len() - 1,
                _ => file.len() + 1 + generator.below(40),
            };
            file.resize(length, 0);
        }
        2 => {
            let end = file.len().min(other.len());
            let from = generator.below(end);
            let to = from + generator.below(end - from + 1);
            file[from..to].copy_from_slice(&other[from..to]);
        }
        3 => {
            // Front fields alone, so that few changes meet many rules.
            for _ in 0..=generator.below(2) {
                let at = one_of(generator, &[0, 2, 4, 6, 16, 20, 24, 28, 32, 36]);
                let by = one_of(generator, &[1, 255, 8, 248, 12, 244]);
                file[at] = file[at].wrapping_add(by);
            }
        }
        _ => {}
    }
}

/// Up to 39 bytes, 0 for a dropped shot; one in eight around a block.
fn random_length(generator: &mut SplitMix64) -> usize {
    match generator.below(8) {
        0 => 127 + generator.below(3),
        _ => generator.below(40),
    }
}

/// The key, but sometimes another or one of another length.
fn random_key(generator: &mut SplitMix64) -> Vec<u8> {
    let mut key = KEY.to_vec();
    match generator.below(20) {
        0 => key = bytes(1, around(generator, 16)),
        1 => key[3] ^= 4,
        _ => {}
    }
    key
}

/// Mostly a small one, but also any 16 bits, and any 64: small ones with a bit
/// above the 16th among them.
fn random_place(generator: &mut SplitMix64) -> usize {
    match generator.below(12) {
        0 => generator.next_word() as u16 as usize,
        1 => 256 * generator.below(256),
        2 => generator.next_word() as usize >> generator.below(64),
        3 => generator.below(7) + (1 << (16 + generator.below(48))),
        _ => generator.below(7),
    }
}

/// The file of these shots, with one of a few burst numbers, in either edition
/// and by any camera.
fn random_file(generator: &mut SplitMix64, bursts: usize, lengths: &[usize]) -> Vec<u8> {
    let edition = one_of(generator, &EDITIONS);
    let mut burst = burst_of(edition, generator.below(bursts) as u64, lengths);
    if edition.has_camera && generator.below(2) == 0 {
        burst.camera = camera_or_0(generator, 20);
    }
    burst.file()
}

/// The edition number of a file that check accepted, or 0.
pub fn edition_read(checked: u32, file: &[u8]) -> u32 {
    match checked {
        0 => file[0].into(),
        _ => 0,
    }
}

/// Check, fetch, record and list of one file do what the reference does. Gives
/// their numbers, and the edition that was read.
pub fn read_call(generator: &mut SplitMix64, what: &dyn Fn() -> String) -> [u32; 5] {
    let count = generator.below(7);
    let lengths: Vec<usize> = (0..count).map(|_| random_length(generator)).collect();
    let mut file = random_file(generator, 3, &lengths);
    let other = random_file(generator, 2, &lengths);
    spoil(generator, &mut file, &other);

    let key = random_key(generator);
    let place = random_place(generator);
    // The length of a picture of this list, often of the fetched one.
    let mut kept = lengths.into_iter().filter(|length| *length > 0);
    let picture = kept.nth(place).unwrap_or(9);
    let out_len = around(generator, picture);
    let info_len = around(generator, FETCH_INFO);

    let what = || format!("{}, {} bytes", what(), file.len());
    let info = around(generator, CHECK_INFO);
    let checked = check_check(&key, &file, info, &what);
    let fetched = check_fetch(&key, &file, place, (out_len, info_len), &what);
    let recorded = check_record(&key, &file, place, &what);
    let room = match generator.below(4) {
        0 => LIST_BYTES,
        _ => around(generator, list(&file).len()),
    };
    let listed = check_list(&file, room, &what);
    let edition = edition_read(checked.0, &file);
    [checked.0, fetched.0, recorded.0, listed, edition]
}
