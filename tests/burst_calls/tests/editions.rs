//! The two editions beside each other, and cameras that share key and burst
//! number (request N1): a file of the one edition called the other, or mixed
//! with it, is never accepted, and no two seals have one nonce.

use std::collections::BTreeSet;

use burst_calls::list::{file_of, shots_of, CAMERAS, KEY};
use burst_calls::listing::{check_text, BROKEN, LIST_BYTES};
use burst_calls::reading::{check_check, check_refused, CHECK_INFO};
use burst_calls::recording::Recording;
use burst_calls::script::script_of;
use reference::burst::layout::{nonce, open_shot};
use reference::burst::reader::front;
use reference::burst::{Entry, EDITIONS, EDITION_1};

/// Lists with records and without.
const LISTS: [&[usize]; 5] = [&[], &[0, 0], &[0, 3, 0], &[1], &[5, 1, 0, 130]];

fn assert_refused(file: &[u8], expected: (u32, u32), what: &str) {
    let refused = check_refused(&KEY, file, &|| what.into());
    assert_eq!(refused, expected, "{what}");
}

// ---- one edition called the other

#[test]
fn called_the_other() {
    for lengths in LISTS {
        for edition in EDITIONS {
            let mut file = file_of(edition, 80, lengths);
            file[0] = 3 - file[0];
            let what = format!("{edition:?} {lengths:?}");
            assert_refused(&file, (12, 0), &what);
            check_text(&file, LIST_BYTES, BROKEN, &|| what.clone());
        }
    }
}

/// Numbers that no edition has, in right files of both.
#[test]
fn called_by_no_edition() {
    for edition in EDITIONS {
        let mut file = file_of(edition, 81, &[0, 3, 0]);
        for number in [0u16, 3, 255, 256, 257, 258, 512, 513, 65_535] {
            file[..2].copy_from_slice(&number.to_le_bytes());
            let what = format!("{edition:?} called {number}");
            assert_refused(&file, (12, 0), &what);
            check_text(&file, LIST_BYTES, BROKEN, &|| what.clone());
        }
    }
}

/// A file in parts.
struct Parts {
    header: Vec<u8>,
    /// The records, one by one.
    records: Vec<Vec<u8>>,
    index: Vec<u8>,
    closing: Vec<u8>,
}

fn parts(file: &[u8]) -> Parts {
    let front = front(file).unwrap();
    let record = |entry: &Entry| file[entry.offset as usize..entry.end() as usize].to_vec();
    let closing = front.header.closing_offset as usize;
    Parts {
        header: front.header.to_bytes(),
        records: front.entries.iter().map(record).collect(),
        index: file[front.header.index_offset as usize..closing].to_vec(),
        closing: file[closing..].to_vec(),
    }
}

/// Header and index of `front` with these records and closing seal.
fn joined(front: &Parts, records: &[Vec<u8>], closing: &[u8]) -> Vec<u8> {
    [&front.header, &records.concat(), &front.index, closing].concat()
}

/// The file with one record of another.
fn with_record(this: &Parts, other: &Parts, place: usize) -> Vec<u8> {
    let mut records = this.records.clone();
    records[place] = other.records[place].clone();
    joined(this, &records, &this.closing)
}

/// The same shots in the other edition: where its front is put around the parts
/// of this file, all offsets fit.
#[test]
fn parts_of_the_other() {
    for lengths in LISTS {
        let files = EDITIONS.map(|edition| parts(&file_of(edition, 82, lengths)));
        let shots: Vec<u32> = (1..)
            .zip(lengths)
            .filter_map(|(shot, length)| (*length > 0).then_some(shot))
            .collect();
        for [this, other] in [[&files[0], &files[1]], [&files[1], &files[0]]] {
            let what = |part: &str| format!("{part}, {lengths:?}");
            let around = joined(other, &this.records, &this.closing);
            assert_refused(&around, (7, 0), &what("the other's front"));
            let closed = joined(this, &this.records, &other.closing);
            assert_refused(&closed, (7, 0), &what("the other's closing seal"));
            for (place, shot) in shots.iter().enumerate() {
                let mixed = with_record(this, other, place);
                assert_refused(&mixed, (7, *shot), &what("a record of the other"));
            }
            if let Some(first) = shots.first() {
                let resealed = joined(other, &this.records, &other.closing);
                assert_refused(&resealed, (7, *first), &what("all but the records"));
            }
        }
    }
}

// ---- cameras that share key and burst number

/// The number of every burst here.
const BURST: u64 = 1;

const LENGTHS: [usize; 5] = [4, 0, 1, 130, 0];

/// What the calls record with this camera number, and for 0 the file of edition
/// 1.
fn file_by(camera: u32) -> Vec<u8> {
    if camera == 0 {
        return file_of(EDITION_1, BURST, &LENGTHS);
    }
    let mut recording = Recording::new(BURST, script_of(&shots_of(&LENGTHS)), 500, 56);
    recording.camera = camera;
    let performed = recording.check(&|| "a camera of many".into());
    let file = performed.file().unwrap().to_vec();
    let what = || format!("camera {camera}");
    assert_eq!(check_check(&KEY, &file, CHECK_INFO, &what), (0, 0));
    file
}

/// Associated data and sealed bytes of every seal of a file, the closing seal
/// last.
fn seals(parts: &Parts) -> Vec<(Vec<u8>, Vec<u8>)> {
    let entries = parts.index.chunks(12).map(<[u8]>::to_vec);
    let mut seals: Vec<_> = entries.zip(parts.records.clone()).collect();
    let ad = [&parts.header[..], &parts.index].concat();
    seals.push((ad, parts.closing.clone()));
    seals
}

/// What nonces are made of: burst number, shot number and camera number.
type Nonce = (u64, u16, u32);

/// The nonces, of all those near, under which a seal opens.
fn nonces_of(cameras: &[u32], (ad, sealed): &(Vec<u8>, Vec<u8>)) -> Vec<Nonce> {
    let mut found = Vec::new();
    for camera in cameras {
        for burst in 0..=BURST + 1 {
            for shot in 0..=LENGTHS.len() as u16 + 1 {
                let opened = open_shot(&KEY, burst, shot, *camera, [ad, &[]], sealed);
                if opened.is_some() {
                    found.push((burst, shot, *camera));
                }
            }
        }
    }
    found
}

/// Each camera makes the same list under one key and the same burst number, and
/// edition 1 made it too. Every seal of all these files opens under its own
/// nonce and no other, and no two have one.
#[test]
fn no_nonce_twice() {
    let cameras = [&[0][..], &CAMERAS].concat();
    let mut nonces = BTreeSet::new();
    for camera in &cameras {
        let seals = seals(&parts(&file_by(*camera)));
        assert_eq!(seals.len(), 4);
        for (seal, shot) in seals.iter().zip([1, 3, 4, 0]) {
            let found = nonces_of(&cameras, seal);
            assert_eq!(found, [(BURST, shot, *camera)]);
            nonces.extend(found.iter().map(|(b, s, c)| nonce(*b, *s, *c)));
        }
    }
    assert_eq!(nonces.len(), 4 * cameras.len());
}

/// A record, or the closing seal, of the one camera in the other's file.
#[test]
fn seals_in_the_others_place() {
    let cameras = [0].into_iter().chain(CAMERAS);
    let files: Vec<Parts> = cameras.map(|camera| parts(&file_by(camera))).collect();
    for (number, this) in files.iter().enumerate() {
        for other in files[..number].iter().chain(&files[number + 1..]) {
            for (place, mark) in [1, 3, 4].into_iter().enumerate() {
                let mixed = with_record(this, other, place);
                assert_refused(&mixed, (7, mark), "a record of another camera");
            }
            let closed = joined(this, &this.records, &other.closing);
            assert_refused(&closed, (7, 0), "the closing seal of another camera");
        }
    }
}

/// The header's camera number, which the closing seal covers.
#[test]
fn another_camera_number() {
    for camera in CAMERAS {
        let file = file_by(camera);
        for other in CAMERAS {
            let mut changed = file.clone();
            changed[32..36].copy_from_slice(&other.to_le_bytes());
            if other != camera {
                assert_refused(&changed, (7, 0), &format!("{camera} as {other}"));
            }
        }
        let mut none = file.clone();
        none[32..36].fill(0);
        assert_refused(&none, (12, 0), &format!("{camera} as 0"));
    }
}
