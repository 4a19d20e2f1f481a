//! The two editions beside each other (request N1): the nonce, files of the one
//! called the other, files too short for the edition they name, cameras that
//! share key and burst number, and what equal files have in common.

mod help;

use std::collections::{BTreeMap, BTreeSet};

use help::{check_number, file_of, list_of, with_camera, KEY, ROOM, STARTS};
use reference::burst::layout::{nonce, open_shot, seal_shot};
use reference::burst::lister::list;
use reference::burst::plain::run;
use reference::burst::reader::{front, record};
use reference::burst::{Call, Edition, Entry, EDITIONS, EDITION_1, EDITION_2};

#[test]
fn bytes_of_the_nonce() {
    let expected = [1, 2, 3, 4, 5, 6, 7, 8, 9, 10, 11, 12, 13, 14, 0, 0];
    let nonce = nonce(0x0807_0605_0403_0201, 0x0A09, 0x0E0D_0C0B);
    assert_eq!(nonce, expected);
}

// ---- one edition called the other

/// Lists with records and without.
const LISTS: [&[usize]; 4] = [&[], &[0, 0], &[0, 3, 0], &[5, 1, 0, 130]];

#[test]
fn called_the_other() {
    for lengths in LISTS {
        for edition in EDITIONS {
            let mut file = file_of(edition, 70, lengths);
            assert_eq!(check_number(&KEY, &file), (0, 0));
            file[0] = 3 - file[0];
            assert_eq!(check_number(&KEY, &file), (12, 0), "{lengths:?}");
            assert_eq!(list(&file), "front 12\n", "{lengths:?}");
        }
    }
}

fn number_at(file: &[u8], at: usize) -> u32 {
    u32::from_le_bytes(file[at..at + 4].try_into().unwrap())
}

/// Adds to the number at an offset.
fn shift(file: &mut [u8], at: usize, by: i32) {
    let shifted = number_at(file, at).wrapping_add_signed(by);
    file[at..at + 4].copy_from_slice(&shifted.to_le_bytes());
}

/// The same records behind the header of the other edition, every offset moved
/// along: the front is that of an accepted file.
fn moved_over(edition: Edition, file: &[u8]) -> Vec<u8> {
    let mut moved = file.to_vec();
    moved[0] = 3 - moved[0];
    let by = match edition == EDITION_1 {
        true => {
            moved.splice(32..32, [5, 0, 0, 0, 0, 0, 0, 0]);
            8
        }
        false => {
            moved.drain(32..40);
            -8
        }
    };
    for at in [16, 20, 24, 28] {
        shift(&mut moved, at, by);
    }
    let [index, closing] = [20, 24].map(|at| number_at(&moved, at) as usize);
    for entry in (index..closing).step_by(12) {
        shift(&mut moved, entry + 4, by);
    }
    moved
}

/// The closing seal is over the header, and the records are sealed under
/// another nonce; so neither the file as it is nor one with the closing seal
/// made anew is accepted, unless nothing was kept.
#[test]
fn moved_to_the_other() {
    for lengths in LISTS {
        for edition in EDITIONS {
            let mut file = moved_over(edition, &file_of(edition, 71, lengths));
            let header = front(&file).expect("the front is right").header;
            assert_ne!(header.edition, edition);
            assert_eq!(check_number(&KEY, &file), (7, 0), "{lengths:?}");

            let closing = header.closing_offset as usize;
            let index = file[header.index_offset as usize..closing].to_vec();
            let ad: [&[u8]; 2] = [&header.to_bytes(), &index];
            let sealed = seal_shot(&KEY, 71, 0, header.camera, &[9; 16], ad, &[]);
            file[closing..].copy_from_slice(&sealed);
            let first_kept = lengths.iter().position(|length| *length > 0);
            let expected = first_kept.map_or((0, 0), |before| (7, before as u32 + 1));
            assert_eq!(check_number(&KEY, &file), expected, "{lengths:?}");
        }
    }
}

// ---- files too short for their edition

/// Bytes 32 to 39 are not all there, or the closing seal is not. A byte behind
/// the end would panic.
#[test]
fn files_below_the_shortest() {
    for (edition, start) in STARTS {
        let shortest = file_of(edition, 72, &[]);
        assert_eq!(shortest.len(), start + 32);
        for length in 0..start + 32 {
            let mut cut = shortest[..length].to_vec();
            assert_refused(&cut);
            if length < 32 {
                continue;
            }
            // Offsets that agree with the length, as far as they can.
            for (at, offset) in [(28, length), (24, length - 32), (20, length - 32)] {
                cut[at..at + 4].copy_from_slice(&(offset as u32).to_le_bytes());
                assert_refused(&cut);
            }
        }
    }
}

/// An empty burst of edition 1 that calls itself edition 2, as it is and made
/// longer, with the offsets of either.
#[test]
fn from_64_to_71_bytes() {
    let empty = file_of(EDITION_1, 73, &[]);
    for length in 64..72 {
        for offset in [32, 40] {
            let mut file = empty.clone();
            file.resize(length, 0);
            file[0] = 2;
            for at in [16, 20, 24] {
                file[at] = offset;
            }
            file[28] = length as u8;
            assert_refused(&file);
            file[32..40].copy_from_slice(&[5, 0, 0, 0, 0, 0, 0, 0]);
            assert_refused(&file);
        }
    }
}

fn assert_refused(file: &[u8]) {
    assert_eq!(front(file), Err(12), "{} bytes", file.len());
    assert_eq!(check_number(&KEY, file), (12, 0), "{} bytes", file.len());
    assert_eq!(record(&KEY, file, 0).number, 12, "{} bytes", file.len());
    assert_eq!(list(file), "front 12\n", "{} bytes", file.len());
}

// ---- cameras that share key and burst number

/// Associated data and sealed bytes of every seal of a file, the closing seal
/// last.
fn seals(file: &[u8]) -> Vec<(Vec<u8>, Vec<u8>)> {
    let front = front(file).unwrap();
    let record = |entry: &Entry| {
        let sealed = &file[entry.offset as usize..entry.end() as usize];
        (entry.to_bytes().to_vec(), sealed.to_vec())
    };
    let mut seals: Vec<_> = front.entries.iter().map(record).collect();
    let index: Vec<u8> = front.entries.iter().flat_map(Entry::to_bytes).collect();
    let ad = [front.header.to_bytes(), index].concat();
    seals.push((ad, file[front.header.closing_offset as usize..].to_vec()));
    seals
}

/// The one nonce that a seal opens under, among those of these cameras and of
/// five shots.
fn nonce_of(burst_number: u64, cameras: &[u32], (ad, sealed): &(Vec<u8>, Vec<u8>)) -> [u8; 16] {
    let mut found = Vec::new();
    for camera in cameras {
        for shot in 0..=5 {
            let opened = open_shot(&KEY, burst_number, shot, *camera, [ad, &[]], sealed);
            if opened.is_some() {
                found.push(nonce(burst_number, shot, *camera));
            }
        }
    }
    assert_eq!(found.len(), 1, "{found:?}");
    found[0]
}

/// Thirty cameras and some more make the same list, under one key and the same
/// burst number, and edition 1 made it too: no two seals of all these files
/// have one nonce.
#[test]
fn no_nonce_twice() {
    let mut cameras: Vec<u32> = (0..=30).collect();
    cameras.extend([0x100, 0x1_0000, 0x100_0000, u32::MAX]);
    let mut nonces = BTreeSet::new();
    let mut count = 0;
    for camera in &cameras {
        let edition = if *camera == 0 { EDITION_1 } else { EDITION_2 };
        let calls = with_camera(list_of(1, &[4, 0, 1, 130, 0]), *camera);
        let file = run(edition, &calls, ROOM).file.unwrap();
        for seal in seals(&file) {
            nonces.insert(nonce_of(1, &cameras, &seal));
            count += 1;
        }
    }
    assert_eq!((nonces.len(), count), (35 * 4, 35 * 4));
}

// ---- what equal files have in common

/// Files are equal exactly where edition, camera number, burst number, site
/// mark and shots are. In edition 1 the camera number given does not matter.
#[test]
fn equal_files() {
    let mut bursts = BTreeMap::new();
    let mut held = BTreeSet::new();
    let mut files = 0;
    let cameras = [1, 2, 0x100, u32::MAX];
    for edition in EDITIONS {
        for (camera, burst, mark) in choices(&cameras, &[1, 2, 1 << 40], &[0, 1]) {
            for lengths in LISTS {
                let mut calls = with_camera(list_of(burst, lengths), camera);
                if let Call::Begin { site_mark, .. } = &mut calls[0] {
                    site_mark[0] ^= mark;
                }
                let outcome = run(edition, &calls, ROOM);
                let b = &outcome.burst;
                let number = b.edition.number;
                let shots = b.shots.clone();
                let parts = (number, b.camera, b.burst_number, b.site_mark, shots);
                let file = outcome.file.unwrap();
                held.insert(parts.clone());
                let before = bursts.entry(file).or_insert_with(|| parts.clone());
                assert_eq!(*before, parts);
                files += 1;
            }
        }
    }
    // Edition 1 has each file once for every camera.
    assert_eq!(files, 2 * 4 * 3 * 2 * 4);
    assert_eq!((bursts.len(), held.len()), (5 * 24, 5 * 24));
}

/// Every choice of one camera number, burst number and change of the site mark.
fn choices(cameras: &[u32], bursts: &[u64], marks: &[u8]) -> Vec<(u32, u64, u8)> {
    let mut choices = Vec::new();
    for camera in cameras {
        for burst in bursts {
            choices.extend(marks.iter().map(|mark| (*camera, *burst, *mark)));
        }
    }
    choices
}
