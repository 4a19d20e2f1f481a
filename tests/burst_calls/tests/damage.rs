//! Damaged, cut and mixed files of both editions are refused by check, fetch and
//! record, with the number and the mark of the reference, and nothing is
//! written.

use burst_calls::lent::Lent;
use burst_calls::list::{burst_of, file_of, CAMERAS, KEY};
use burst_calls::reading::{check_check, check_refused, CHECK_INFO, FETCH_INFO};
use reference::burst::plain::PlainShot;
use reference::burst::reader::RecordPart;
use reference::burst::{Edition, Header, PlainBurst, EDITIONS, EDITION_2};

/// Refused by the calls and the reference with this number and mark.
fn assert_refused(file: &[u8], number: u32, mark: u32, what: &str) {
    let refused = check_refused(&KEY, file, &|| what.into());
    assert_eq!(refused, (number, mark), "{what}");
}

/// What check makes of a file of these shots, 0 for a dropped one, with one
/// byte changed: worked out from the layout alone. The front still holds only
/// with another burst number or camera number, or another shot number that fits
/// between its neighbours.
fn expected(edition: Edition, lengths: &[usize], changed: &[u8], at: usize) -> (u32, u32) {
    let kept = || (1..).zip(lengths).filter(|(_, length)| **length > 0);
    let mut index = edition.header_bytes;
    for (shot, length) in kept() {
        let end = index + length + 32;
        if (index..end).contains(&at) {
            return (7, shot);
        }
        index = end;
    }
    let closing = index + 12 * kept().count();
    let entries = changed[index..closing].chunks(12);
    let shots: Vec<u16> = entries
        .map(|entry| u16::from_le_bytes([entry[0], entry[1]]))
        .collect();
    let rise = shots.windows(2).all(|two| two[0] < two[1]);
    let in_range = |shot: &u16| (1..=lengths.len()).contains(&usize::from(*shot));
    match at {
        8..16 => (7, 0),
        32..36 if edition == EDITION_2 && changed[32..36] != [0; 4] => (7, 0),
        _ if at >= closing => (7, 0),
        _ if at < index || (at - index) % 12 > 1 => (12, 0),
        _ if rise && shots.iter().all(in_range) => (7, 0),
        _ => (12, 0),
    }
}

/// Check is refused as the reference refuses, and fetch and record of a place
/// as check is; nothing is written. Gives the number and the mark.
fn refused_at(file: &[u8], place: usize, what: &dyn Fn() -> String) -> (u32, u32) {
    let refused = check_check(&KEY, file, CHECK_INFO, what);
    let (mut out, mut info) = (Lent::of(129), Lent::of(FETCH_INFO));
    let fetched = burst_calls::fetch(&KEY, file, place, out.slice(), info.slice());
    assert_eq!(fetched, refused, "fetch {place}, {}", what());
    out.check_untouched(&|| format!("out, fetch {place}, {}", what()));
    info.check_untouched(&|| format!("info, fetch {place}, {}", what()));
    let part = RecordPart {
        number: refused.0,
        mark: refused.1,
        offset: 0,
        length: 0,
    };
    let recorded = burst_calls::record(&KEY, file, place);
    assert_eq!(recorded, part, "record {place}, {}", what());
    refused
}

/// The same for every byte, in each edition.
fn every_byte(lengths: &[usize], values: fn(u8) -> Vec<u8>) {
    for edition in EDITIONS {
        every_byte_of(&burst_of(edition, 7, lengths), values);
    }
}

fn every_byte_of(burst: &PlainBurst, values: fn(u8) -> Vec<u8>) {
    let file = burst.file();
    bytes_at(burst, &file, 0..file.len(), values);
}

/// The file of a burst with one byte changed, at each of the offsets, to each of
/// the values but its own: refused by the three calls as the layout says. The
/// places go round, the first that is not there among them.
fn bytes_at(
    burst: &PlainBurst,
    file: &[u8],
    offsets: impl Iterator<Item = usize>,
    values: fn(u8) -> Vec<u8>,
) {
    let length = |shot: &PlainShot| shot.as_ref().map_or(0, |(_, picture)| picture.len());
    let lengths: Vec<usize> = burst.shots.iter().map(length).collect();
    let edition = burst.edition;
    let kept = lengths.iter().filter(|length| **length > 0).count();
    let mut places = (0..=kept).cycle();
    let mut changed = file.to_vec();
    for at in offsets {
        for value in values(file[at]) {
            if value == file[at] {
                continue;
            }
            changed[at] = value;
            let what = || format!("{edition:?} {lengths:?}, byte {at} value {value:#04x}");
            let refused = refused_at(&changed, places.next().unwrap(), &what);
            let expected = expected(edition, &lengths, &changed, at);
            assert_eq!(refused, expected, "{}", what());
        }
        changed[at] = file[at];
    }
}

/// Each bit, the whole byte, and the two ends of its range.
fn flips_and_ends(byte: u8) -> Vec<u8> {
    let flips = (0..8).map(|bit| byte ^ (1 << bit));
    flips.chain([!byte, 0, 255]).collect()
}

/// The lowest bit, the whole byte, and the two ends of its range.
fn flip_and_ends(byte: u8) -> Vec<u8> {
    vec![byte ^ 1, !byte, 0, 255]
}

#[test]
fn every_value_of_every_byte() {
    let example = EDITIONS.map(|edition| file_of(edition, 7, &[0, 3, 0]).len());
    assert_eq!(example, [111, 119]);
    for lengths in [&[0, 3, 0][..], &[], &[1], &[4, 0], &[0, 0, 0]] {
        every_byte(lengths, |_| (0..=255).collect());
    }
}

/// Camera numbers of which one byte alone is not 0: without it, the number is 0.
#[test]
fn every_value_of_every_byte_of_a_camera() {
    for camera in [1, 256, 1 << 16, 0xFF << 24] {
        let burst = PlainBurst {
            camera,
            ..burst_of(EDITION_2, 7, &[0, 3, 0])
        };
        every_byte_of(&burst, |_| (0..=255).collect());
    }
}

#[test]
fn every_byte_of_pictures_around_a_block() {
    for length in [1, 127, 128, 129] {
        every_byte(&[length], flips_and_ends);
        every_byte(&[0, length, 0], flips_and_ends);
    }
}

#[test]
fn every_byte_of_a_burst_without_pictures() {
    let empty = EDITIONS.map(|edition| file_of(edition, 7, &[]).len());
    assert_eq!(empty, [64, 72]);
    for lengths in [&[][..], &[0], &[0; 60]] {
        every_byte(lengths, flips_and_ends);
    }
}

#[test]
fn every_byte_with_the_last_shot_dropped() {
    for lengths in [&[4, 0][..], &[128, 1, 0], &[0, 5, 0, 0]] {
        every_byte(lengths, flips_and_ends);
    }
}

#[test]
fn every_byte_of_a_mixture() {
    for lengths in [&[0, 5, 2, 0, 129, 1][..], &[127, 0, 128, 129, 0, 0, 1, 0]] {
        every_byte(lengths, flips_and_ends);
    }
}

/// The longest picture: header, both ends of the record, some bytes within it,
/// index and closing seal. Every byte would take hours.
#[test]
fn bytes_of_the_longest_picture() {
    let burst = burst_of(EDITION_2, 7, &[1_048_576]);
    let file = burst.file();
    let end = 40 + 1_048_576 + 32;
    let within = (72..end).step_by(100_003);
    let offsets = (0..58).chain(within).chain(end - 20..file.len());
    bytes_at(&burst, &file, offsets, |byte| vec![byte ^ 1]);
}

#[test]
fn every_byte_of_sixty_shots() {
    every_byte(&[1; 60], flip_and_ends);
}

/// Sixty shots, every third dropped: an entry's shot number can fit elsewhere.
#[test]
fn every_byte_of_sixty_shots_with_gaps() {
    let lengths: Vec<usize> = (0..60).map(|shot| shot % 3).collect();
    every_byte(&lengths, flip_and_ends);
}

/// Every other way to call fetch and record on a damaged file: places, outputs
/// and infos that are refused too, but later in the order.
#[test]
fn every_bit_of_every_byte() {
    let lists = [&[][..], &[0, 3, 0], &[0, 5, 2, 0, 129, 1]];
    for (edition, lengths) in in_editions(lists) {
        let file = file_of(edition, 7, lengths);
        for at in 0..file.len() {
            for value in flips_and_ends(file[at]) {
                let mut changed = file.clone();
                changed[at] = value;
                if changed != file {
                    let (number, mark) = expected(edition, lengths, &changed, at);
                    let what = format!("{edition:?} {lengths:?}, byte {at} value {value:#04x}");
                    assert_refused(&changed, number, mark, &what);
                }
            }
        }
    }
}

/// Each of these lists, in each edition.
fn in_editions<const N: usize>(lists: [&[usize]; N]) -> Vec<(Edition, &[usize])> {
    let each = |edition| lists.map(|lengths| (edition, lengths));
    EDITIONS.into_iter().flat_map(each).collect()
}

#[test]
fn every_length_cut_or_extended() {
    for (edition, lengths) in in_editions([&[0, 3, 0], &[], &[130, 0, 1]]) {
        let file = file_of(edition, 7, lengths);
        for length in 0..file.len() {
            assert_refused(&file[..length], 12, 0, &format!("cut to {length}"));
            let end = &file[file.len() - length..];
            assert_refused(end, 12, 0, &format!("the last {length}"));
        }
        for added in 0..=255 {
            let longer = [&file[..], &[added]].concat();
            assert_refused(&longer, 12, 0, &format!("{added} after it"));
            let before = [&[added], &file[..]].concat();
            assert_refused(&before, 12, 0, &format!("{added} before it"));
        }
        assert_refused(&[&file[..], &file].concat(), 12, 0, "twice");
        for at in 0..file.len() {
            let without = [&file[..at], &file[at + 1..]].concat();
            assert_refused(&without, 12, 0, &format!("without byte {at}"));
        }
    }
}

/// Counts changed together so that the front rules still hold.
#[test]
fn counts_are_under_the_closing_seal() {
    for edition in EDITIONS {
        let file = file_of(edition, 7, &[0, 3, 0]);
        for (taken, dropped) in [(2, 1), (4, 3), (60, 59)] {
            let mut changed = file.clone();
            (changed[2], changed[6]) = (taken, dropped);
            assert_refused(&changed, 7, 0, "taken and dropped");
        }
        for shot in [1, 3] {
            let mut changed = file.clone();
            changed[edition.header_bytes + 35] = shot;
            assert_refused(&changed, 7, 0, "another shot number");
        }
    }
}

/// Two ranges of a file swapped, each `length` bytes long.
fn swapped(file: &[u8], first: usize, second: usize, length: usize) -> Vec<u8> {
    let mut changed = file.to_vec();
    let (front, back) = changed.split_at_mut(second);
    front[first..first + length].swap_with_slice(&mut back[..length]);
    changed
}

// Shots 2 and 4 are kept, of 5 bytes each: behind the header, records at 0 and
// 37, the index at 74, the closing seal at 98.
#[test]
fn swapped_entries_and_records() {
    for edition in EDITIONS {
        let file = file_of(edition, 21, &[0, 5, 0, 5]);
        let start = edition.header_bytes;
        let [second, index] = [start + 37, start + 74];
        assert_eq!(file.len(), start + 130);
        assert_refused(&swapped(&file, index, index + 12, 12), 12, 0, "entries");
        assert_refused(&swapped(&file, index, index + 12, 2), 12, 0, "shot numbers");
        assert_refused(&swapped(&file, index + 4, index + 16, 4), 12, 0, "offsets");
        assert_refused(&swapped(&file, start, second, 37), 7, 2, "records");
        let both = swapped(&swapped(&file, index, index + 12, 12), start, second, 37);
        assert_refused(&both, 12, 0, "entries and records");
        let first = [&file[..second], &file[start..second], &file[index..]].concat();
        assert_refused(&first, 7, 4, "the first record twice");
        let other = [&file[..start], &file[second..index], &file[second..]].concat();
        assert_refused(&other, 7, 2, "the second record twice");
    }
}

/// Two lengths swapped, and then the second record moved to fit.
#[test]
fn swapped_lengths() {
    for edition in EDITIONS {
        let file = file_of(edition, 22, &[5, 6]);
        let start = edition.header_bytes;
        let index = start + 37 + 38;
        let mut changed = swapped(&file, index + 8, index + 20, 4);
        assert_refused(&changed, 12, 0, "lengths alone");
        changed[index + 16] = start as u8 + 38;
        assert_refused(&changed, 7, 0, "lengths, and the offset between");
    }
}

// Shots 1 and 3 are kept: behind the header, records at 0 and 36, the index at
// 73, the closing seal at 97, the end at 129.
const KEPT_1_AND_3: [usize; 3] = [4, 0, 5];

/// The burst of these shots, and one that differs from it as said.
fn pair(edition: Edition, change: impl Fn(&mut PlainBurst)) -> [Vec<u8>; 2] {
    let burst = burst_of(edition, 30, &KEPT_1_AND_3);
    let mut other = burst.clone();
    change(&mut other);
    let files = [burst.file(), other.file()];
    let lengths = files.clone().map(|file| file.len());
    assert_eq!(lengths, [edition.header_bytes + 129; 2]);
    let what = || "the other file".into();
    assert_eq!(
        check_check(&other.key, &files[1], CHECK_INFO, &what),
        (0, 0)
    );
    files
}

/// The file with bytes of the other in some range behind the header.
fn with_part(edition: Edition, file: &[u8], other: &[u8], from: usize, to: usize) -> Vec<u8> {
    let part = edition.header_bytes + from..edition.header_bytes + to;
    let mut changed = file.to_vec();
    changed[part.clone()].copy_from_slice(&other[part]);
    changed
}

/// Each part of the other file put into the file, alone.
fn assert_parts_refused(edition: Edition, file: &[u8], other: &[u8]) {
    for (from, to, mark) in [(0, 36, 1), (36, 73, 3), (0, 73, 1), (97, 129, 0)] {
        let changed = with_part(edition, file, other, from, to);
        assert_refused(&changed, 7, mark, &format!("bytes {from} to {to}"));
    }
}

/// Parts of another file whose header obeys the rules here too; each record is
/// sealed under another nonce there.
fn assert_other_nonces(edition: Edition, file: &[u8], other: &[u8]) {
    assert_parts_refused(edition, file, other);
    // Header and closing seal of the other: the records are the wrong ones.
    let start = edition.header_bytes;
    let header = [&other[..start], &file[start..]].concat();
    assert_refused(&header, 7, 0, "the header");
    let closing = with_part(edition, &header, other, 97, 129);
    assert_refused(&closing, 7, 1, "header and closing seal");
    let first = with_part(edition, &closing, other, 0, 36);
    assert_refused(&first, 7, 3, "all but the last record");
}

#[test]
fn parts_of_another_burst() {
    for edition in EDITIONS {
        let [file, other] = pair(edition, |burst| burst.burst_number = 31);
        assert_other_nonces(edition, &file, &other);
    }
}

/// One key and one burst number, and all else the same but the camera.
#[test]
fn parts_of_another_camera() {
    for camera in CAMERAS {
        let [file, other] = pair(EDITION_2, |burst| burst.camera = camera);
        assert_other_nonces(EDITION_2, &file, &other);
        assert_other_nonces(EDITION_2, &other, &file);
    }
}

#[test]
fn parts_under_another_key() {
    for edition in EDITIONS {
        for byte in [0, 7, 8, 15] {
            let [file, other] = pair(edition, |burst| burst.key[byte] ^= 1);
            assert_refused(&other, 7, 0, "the other key's file");
            assert_parts_refused(edition, &file, &other);
        }
    }
}

#[test]
fn closing_seal_of_another_list() {
    for edition in EDITIONS {
        // The same shots on another site: all but the closing seal is the same.
        let [file, other] = pair(edition, |burst| burst.site_mark[0] ^= 1);
        let closing = edition.header_bytes + 97;
        assert_eq!(file[..closing], other[..closing]);
        let mixed = with_part(edition, &file, &other, 97, 113);
        assert_refused(&mixed, 7, 0, "the other sealed site mark");
        // The same pictures with one shot more.
        let mut longer = file_of(edition, 30, &[4, 0, 5, 0]);
        longer[closing..].copy_from_slice(&file[closing..]);
        assert_refused(&longer, 7, 0, "the closing seal before a drop");
    }
}

/// The same picture under another shot number, or with another stamp, is
/// another record.
#[test]
fn records_of_the_same_picture() {
    for edition in EDITIONS {
        let start = edition.header_bytes;
        let file = file_of(edition, 30, &[0, 4]);
        let other = file_of(edition, 30, &[4, 0]);
        let changed = with_part(edition, &file, &other, 0, 36);
        assert_refused(&changed, 7, 2, "shot 1 as shot 2");
        let parts = swapped(&file, start, start + 16, 4);
        assert_refused(&parts, 7, 2, "parts of a record");

        let [file, other] = pair(edition, |burst| {
            burst.shots[0].as_mut().unwrap().0[5] ^= 2;
        });
        assert_eq!(file[start + 36..], other[start + 36..]);
        let changed = with_part(edition, &file, &other, 0, 16);
        assert_refused(&changed, 7, 1, "the stamp of another file");
    }
}

/// The first failing seal gives the mark: the closing seal, then the records.
#[test]
fn first_failing_seal_gives_the_mark() {
    for edition in EDITIONS {
        let file = file_of(edition, 40, &[0, 2, 2, 0, 2]);
        let records = [0, 34, 68].map(|offset| edition.header_bytes + offset);
        let shots = [2, 3, 5];
        let closing = file.len() - 1;
        for damage in 1u32..16 {
            let mut changed = file.clone();
            for place in 0..3 {
                changed[records[place] + 33] ^= ((damage >> place) & 1) as u8;
            }
            changed[closing] ^= (damage >> 3) as u8;
            let mark = match damage {
                8.. => 0,
                _ => shots[damage.trailing_zeros() as usize],
            };
            assert_refused(&changed, 7, mark, &format!("damage {damage:b}"));
        }
    }
}

/// Every shot number as a mark: sixty kept pictures, one damaged.
#[test]
fn every_mark() {
    let lengths: Vec<usize> = (0..60).map(|shot| usize::from(shot % 7 != 3)).collect();
    for edition in EDITIONS {
        let file = file_of(edition, 42, &lengths);
        let mut record = edition.header_bytes;
        for (shot, length) in (1..).zip(&lengths) {
            if *length > 0 {
                let mut changed = file.clone();
                changed[record + 16] ^= 0x40;
                assert_refused(&changed, 7, shot, &format!("shot {shot}"));
                record += length + 32;
            }
        }
    }
}

/// A wrong front comes before a failing seal.
#[test]
fn front_comes_before_the_seals() {
    for edition in EDITIONS {
        let mut file = file_of(edition, 41, &[2]);
        file[edition.header_bytes + 1] ^= 1;
        assert_refused(&file, 7, 1, "the record");
        let mut header = Header::from_file(&file).unwrap();
        header.dropped += 1;
        file[..edition.header_bytes].copy_from_slice(&header.to_bytes());
        assert_refused(&file, 12, 0, "the record and the count of gaps");
    }
}

/// Files that no list was ever turned into.
#[test]
fn files_of_one_byte_repeated() {
    for value in [0, 1, 2, 32, 40, 255] {
        for length in (0..200).chain([65_536, 70_000]) {
            let what = format!("{length} times {value}");
            assert_refused(&vec![value; length], 12, 0, &what);
        }
    }
}
