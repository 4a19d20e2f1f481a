//! The reader's calls: their orders, what they return, and the part of the
//! file that record returns ("Reader"), in both editions.

mod help;

use help::{bytes, check_number, file_of, list_of, with_camera};
use help::{CAMERA, KEY, ROOM, SITE_MARK, STARTS};
use reference::burst::plain::run;
use reference::burst::reader::{check, fetch, record, Checked, Fetched, RecordPart};
use reference::burst::{Call, Edition, Refusal, EDITION_1, EDITION_2};
use reference::sealing::{open, Variant};

// Shots 2 and 4 are kept, of 3 and 130 bytes: the second record is 35 bytes
// behind the first.
const LENGTHS: [usize; 5] = [0, 3, 0, 130, 0];

fn refusals(key: &[u8], file: &[u8], place: u64, out_len: usize) -> [(u32, u32); 3] {
    let pair = |refusal: Refusal| (refusal.number, refusal.mark);
    let part = record(key, file, place);
    if part.number != 0 {
        assert_eq!((part.offset, part.length), (0, 0));
    }
    [
        check(key, file).map_or_else(pair, |_| (0, 0)),
        fetch(key, file, place, out_len).map_or_else(pair, |_| (0, 0)),
        (part.number, part.mark),
    ]
}

#[test]
fn check_returns_numbers_mark_and_counts() {
    for (edition, camera) in [(EDITION_1, 0), (EDITION_2, CAMERA)] {
        let expected = Checked {
            burst_number: 60,
            camera,
            site_mark: SITE_MARK,
            taken: 5,
            kept: 2,
            dropped: 3,
        };
        let file = file_of(edition, 60, &LENGTHS);
        assert_eq!(check(&KEY, &file), Ok(expected));
    }
}

#[test]
fn fetch_returns_what_was_kept() {
    for (edition, _) in STARTS {
        let file = file_of(edition, 60, &LENGTHS);
        for (place, shot, length) in [(0, 2, 3), (1, 4, 130)] {
            let expected = Fetched {
                picture: bytes(shot - 1, length),
                stamp: bytes(shot + 99, 16).try_into().unwrap(),
                shot: shot as u64,
                length: length as u64,
            };
            for out_len in [length, length + 1, ROOM] {
                assert_eq!(fetch(&KEY, &file, place, out_len), Ok(expected.clone()));
            }
            for out_len in [0, length - 1] {
                let refused = Err(Refusal::unmarked(5));
                assert_eq!(fetch(&KEY, &file, place, out_len), refused);
            }
        }
    }
}

/// The part opens as it stands, with its entry as associated data.
#[test]
fn record_is_a_part_of_the_file() {
    for (edition, start) in STARTS {
        let file = file_of(edition, 60, &LENGTHS);
        let index = start + 35 + 162;
        for (place, shot, offset, length) in [(0, 2, start, 35), (1, 4, start + 35, 162)] {
            let part = record(&KEY, &file, place as u64);
            let expected = RecordPart {
                number: 0,
                mark: 0,
                offset,
                length,
            };
            assert_eq!(part, expected);
            let mut nonce = [0; 16];
            (nonce[0], nonce[8]) = (60, shot);
            if edition == EDITION_2 {
                nonce[10..14].copy_from_slice(&[0x0A, 0x0B, 0x0C, 0x0D]);
            }
            let ad = &file[index + 12 * place..index + 12 * (place + 1)];
            let sealed = &file[offset..offset + length];
            let opened = open(Variant::Icepole128, &KEY, &nonce, ad, &[], sealed, 130, 24);
            assert_eq!(opened.unwrap().0, bytes(shot as usize - 1, length - 32));
        }
    }
}

#[test]
fn orders() {
    for (edition, start) in STARTS {
        orders_of(edition, start);
    }
}

fn orders_of(edition: Edition, start: usize) {
    let file = file_of(edition, 60, &LENGTHS);
    let mut wrong_front = file.clone();
    wrong_front[0] = 3;
    let mut wrong_record = file.clone();
    wrong_record[start + 38] ^= 1;
    let far = u64::MAX;
    // Everything is wrong at once, then less and less.
    for key in [0, 15, 17, 32] {
        let key = bytes(1, key);
        assert_eq!(refusals(&key, &wrong_front, far, 0), [(1, 0); 3]);
        assert_eq!(refusals(&key, &[], 0, ROOM), [(1, 0); 3]);
        assert_eq!(refusals(&key, &file, 0, ROOM), [(1, 0); 3]);
    }
    assert_eq!(refusals(&KEY, &wrong_front, far, 0), [(12, 0); 3]);
    assert_eq!(refusals(&[7; 16], &wrong_front, 0, ROOM), [(12, 0); 3]);
    assert_eq!(refusals(&[7; 16], &file, far, 0), [(7, 0); 3]);
    assert_eq!(refusals(&KEY, &wrong_record, far, 0), [(7, 4); 3]);
    assert_eq!(refusals(&KEY, &wrong_record, 0, ROOM), [(7, 4); 3]);
    for place in [2, 3, 4, 5, 60, 256, 65_536, 1 << 32, far] {
        let expected = [(0, 0), (13, 0), (13, 0)];
        assert_eq!(refusals(&KEY, &file, place, 0), expected);
        assert_eq!(refusals(&KEY, &file, place, ROOM), expected);
    }
    assert_eq!(refusals(&KEY, &file, 0, 2), [(0, 0), (5, 0), (0, 0)]);
    assert_eq!(refusals(&KEY, &file, 0, 3), [(0, 0); 3]);
}

/// Every other value of every byte of a small file: 12 in the front, unless it
/// keeps the rules, else 7. Burst numbers all keep them, and camera numbers but
/// 0.
#[test]
fn every_byte_changed() {
    for (edition, start) in STARTS {
        // Of the camera number one byte is not 0.
        let calls = with_camera(list_of(62, &[1, 0, 2]), 5);
        let mut file = run(edition, &calls, ROOM).file.unwrap();
        let (second, index) = (start + 33, start + 33 + 34);
        let closing = index + 24;
        assert_eq!(file.len(), closing + 32);
        for at in 0..file.len() {
            let byte = file[at];
            for value in (0..=255).filter(|value| *value != byte) {
                file[at] = value;
                let is_camera = edition == EDITION_2 && (32..36).contains(&at);
                // Shots 2 and 3, or 1 and 2, still rise.
                let keeps_the_rules = (8..16).contains(&at)
                    || is_camera && file[32..36] != [0; 4]
                    || [index, index + 12].contains(&at) && value == 2
                    || at >= closing;
                let expected = if (start..second).contains(&at) {
                    (7, 1)
                } else if (second..index).contains(&at) {
                    (7, 3)
                } else if keeps_the_rules {
                    (7, 0)
                } else {
                    (12, 0)
                };
                assert_eq!(check_number(&KEY, &file), expected, "{at} {value}");
            }
            file[at] = byte;
        }
        assert_eq!(check_number(&KEY, &file), (0, 0));
    }
}

/// The site mark comes from the closing seal of this file.
#[test]
fn site_marks_differ_where_the_lists_do() {
    let mut calls = list_of(61, &LENGTHS);
    if let Call::Begin { site_mark, .. } = &mut calls[0] {
        site_mark[15] ^= 0x80;
    }
    for (edition, _) in STARTS {
        let outcome = run(edition, &calls, ROOM);
        let checked = check(&KEY, &outcome.file.unwrap()).unwrap();
        assert_eq!(checked.site_mark, outcome.burst.site_mark);
        assert_ne!(checked.site_mark, SITE_MARK);
    }
}
