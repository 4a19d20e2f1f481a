//! What docs/FORMAT.md shows is what the documents say: its tables of header,
//! index entry and editions, its worked files and how they are recorded, what is
//! read from them, from damaged copies and from fronts without seals, its plans
//! and how they are sized up, its listings, its vectors, its tables of the
//! permutation, and the order of its front rules.

mod help;

use std::collections::BTreeSet;
use std::ops::Range;

use help::{list_of, unsealed};
use reference::burst::layout::{
    Edition, EDITIONS, EDITION_1, EDITION_2, ENTRY_BYTES, LONGEST_PICTURE, MOST_SHOTS, SEAL_BYTES,
};
use reference::burst::lister::{list, LONGEST_LISTED};
use reference::burst::plain::{run, Call};
use reference::burst::reader::{check, fetch, front, record, Checked, Fetched};
use reference::burst::{size_up, Entry, Header, PlainBurst, Refusal, Size};
use reference::page::{self, counting, damaged_copies, WORKED};
use reference::page::{Damaged, Field, FrontRow, Part, Reading, Recorded, Stretch, Worked};
use reference::permutation::{
    bits, words, State, OFFSETS, ROUND_CONSTANTS, STARTING_WORDS, ZERO_STATE,
};
use reference::random::SplitMix64;
use reference::sealing::{open, seal, Variant};

fn key() -> Vec<u8> {
    counting(0x00, 16)
}

/// The little-endian number of some bytes.
fn number_of(bytes: &[u8]) -> u64 {
    let bytes = bytes.iter().rev();
    bytes.fold(0, |sum, byte| sum << 8 | u64::from(*byte))
}

/// Every block of the page has a test below.
#[test]
fn no_other_blocks() {
    let held = [
        "hex file in edition 1",
        "hex file in edition 2",
        "hex second file",
        "hex third file",
        "hex empty",
        "hex three bytes",
        "hex 130 bytes",
        "hex tag of 128 bytes",
        "hex associated data of 128 bytes",
        "hex associated data of 140 bytes",
        "hex associated data of 256 bytes",
        "words starting words",
        "words constants",
        "words after mu",
        "words after rho",
        "words after pi",
        "words after psi",
        "words after kappa",
        "words P6 of zero",
        "numbers offsets",
        "text listing in edition 1",
        "text listing in edition 2",
        "text second listing",
        "text third listing",
        "text too long",
        "text broken",
    ];
    let named = page::names();
    assert_eq!(named.len(), held.len());
    let named: BTreeSet<&str> = named.iter().map(|name| &name[..]).collect();
    assert_eq!(named, BTreeSet::from(held));
}

/// So does every table of the examples.
#[test]
fn no_other_tables() {
    let held = [
        "Where the two files differ",
        "Damaged copies of them",
        "The second file",
        "Calls on it",
        "Recording it",
        "The third file",
        "Begins",
        "Plans",
        "Fronts",
    ];
    assert_eq!(page::tables(), held);
}

// ---- the tables of the layout

/// The fields touch, from 0 to the end, and have these numbers.
fn check_fields(fields: &[Field], bytes: &[u8], number: &dyn Fn(&str) -> u64) {
    let mut end = 0;
    for Field {
        offset,
        length,
        name,
        ..
    } in fields
    {
        assert_eq!(*offset, end, "{name}");
        end += length;
        assert_eq!(number_of(&bytes[*offset..end]), number(name), "{name}");
    }
    assert_eq!(end, bytes.len());
}

/// The fields that the header of an edition has.
fn header_fields(edition: Edition) -> Vec<Field> {
    let mut fields = page::fields("Header");
    fields.retain(|field| edition.has_camera || !field.is_of_edition_2);
    fields
}

#[test]
fn header_table() {
    for edition in EDITIONS {
        let header = Header {
            edition,
            taken: 0x0302,
            kept: 0x0504,
            dropped: 0x0706,
            burst_number: 0x0F0E_0D0C_0B0A_0908,
            picture_offset: 0x1312_1110,
            index_offset: 0x1716_1514,
            closing_offset: 0x1B1A_1918,
            total: 0x1F1E_1D1C,
            camera: 0x2322_2120,
            zeros: 0x2726_2524,
        };
        let number = |name: &str| match name {
            "edition" => edition.number.into(),
            "taken" => header.taken.into(),
            "kept" => header.kept.into(),
            "dropped" => header.dropped.into(),
            "burst number" => header.burst_number,
            "picture offset" => header.picture_offset.into(),
            "index offset" => header.index_offset.into(),
            "closing offset" => header.closing_offset.into(),
            "total length" => header.total.into(),
            "camera number" => header.camera.into(),
            "four zeros" => header.zeros.into(),
            _ => panic!("no such field: {name}"),
        };
        check_fields(&header_fields(edition), &header.to_bytes(), &number);
    }
    let [first, second] = EDITIONS.map(|edition| edition.header_bytes);
    let offsets = format!("always {first} in edition 1 and {second} in edition 2");
    assert!(page::says(&format!("| picture offset, {offsets} |")));
}

#[test]
fn entry_table() {
    let entry = Entry {
        shot: 0x0201,
        zero: 0x0403,
        offset: 0x0807_0605,
        length: 0x0C0B_0A09,
    };
    let number = |name: &str| match name {
        "shot number" => entry.shot.into(),
        "zero" => entry.zero.into(),
        "record offset" => entry.offset.into(),
        "picture length" => entry.length.into(),
        _ => panic!("no such field: {name}"),
    };
    check_fields(&page::fields("Index entry"), &entry.to_bytes(), &number);
}

/// Begin and close.
fn empty_burst(camera: u32) -> Vec<Call> {
    let begin = Call::Begin {
        key: key(),
        burst_number: 7,
        camera,
        site_mark: counting(0x10, 16),
    };
    vec![begin, Call::Close]
}

/// `bytes 32 to 35`, where the header has these fields.
fn bytes_in_header(edition: Edition, camera: u32, zeros: u32) -> String {
    let file = run(edition, &empty_burst(1), 72).file.unwrap();
    let header = Header {
        camera,
        zeros,
        ..Header::from_file(&file).unwrap()
    };
    let bytes = header.to_bytes();
    let held = |at: &usize| bytes[*at] == 0xFF;
    let (first, last) = (
        (0..bytes.len()).find(held),
        (0..bytes.len()).rev().find(held),
    );
    match (first, last) {
        (Some(first), Some(last)) => format!("bytes {first} to {last}"),
        _ => "none".into(),
    }
}

/// What bytes 10 to 13 of a nonce are in a file of this edition.
fn camera_in_nonce(worked: &Worked) -> String {
    let [record, _] = worked.parts();
    match number_of(&record.nonce[10..14]) {
        0 => "zeros".into(),
        number => {
            assert_eq!(number, u64::from(worked.camera));
            "camera number".into()
        }
    }
}

/// The camera numbers that check answers.
fn cameras_answered(edition: Edition) -> String {
    let [least, most] = [1, u32::MAX].map(|camera| {
        let file = run(edition, &empty_burst(camera), 72).file.unwrap();
        check(&key(), &file).unwrap().camera
    });
    match least == most {
        true => least.to_string(),
        false => format!("{least} to {most}"),
    }
}

/// The numbers of a begin that has everything wrong and then less and less, and
/// the least buffer that it takes.
fn begin_numbers(edition: Edition) -> (String, usize) {
    let number = |key: usize, mark: usize, camera, buffer_len| {
        let begin = Call::Begin {
            key: counting(0, key),
            burst_number: 7,
            camera,
            site_mark: counting(0, mark),
        };
        run(edition, &[begin], buffer_len).answers[0].number
    };
    let tried = [
        number(15, 15, 0, 0),
        number(16, 15, 0, 0),
        number(16, 16, 0, 0),
        number(16, 16, 1, 0),
    ];
    let mut numbers = tried.map(|number| number.to_string()).to_vec();
    numbers.dedup();
    let least = (0..200).find(|buffer_len| number(16, 16, 1, *buffer_len) == 0);
    (numbers.join(" "), least.unwrap())
}

/// The shortest and the longest file.
fn file_lengths(edition: Edition) -> (usize, usize) {
    let shortest = run(edition, &empty_burst(1), 72).file.unwrap().len();
    let longest = shortest + MOST_SHOTS * (LONGEST_PICTURE + SEAL_BYTES + ENTRY_BYTES);
    (shortest, longest)
}

#[test]
fn table_of_the_editions() {
    let rows = page::editions();
    assert_eq!(rows.len(), 11);
    for (what, cells) in rows {
        for (worked, cell) in WORKED.iter().zip(cells) {
            let edition = worked.edition;
            let expected = match what {
                "edition" => edition.number.to_string(),
                "length of the header" => edition.header_bytes.to_string(),
                "picture offset" => number_of(&worked.file()[16..20]).to_string(),
                "camera number in the header" => bytes_in_header(edition, u32::MAX, 0),
                "zeros in the header" => bytes_in_header(edition, 1, u32::MAX),
                "bytes 10 to 13 of a nonce" => camera_in_nonce(worked),
                "shortest file" => file_lengths(edition).0.to_string(),
                "longest file" => file_lengths(edition).1.to_string(),
                "camera number that check answers" => cameras_answered(edition),
                "numbers of begin, in their order" => begin_numbers(edition).0,
                "buffer that begin needs" => begin_numbers(edition).1.to_string(),
                _ => panic!("no such row: {what}"),
            };
            assert_eq!(cell, expected, "{what}");
        }
    }
}

#[test]
fn limits() {
    for edition in EDITIONS {
        let (shortest, longest) = file_lengths(edition);
        let millions = longest / 1_000_000;
        let (thousands, ones) = (longest / 1_000 % 1_000, longest % 1_000);
        let words = format!(
            "| file of edition {} | {shortest}: no picture kept | \
             {millions},{thousands:03},{ones:03}: 60 pictures of 1,048,576 |",
            edition.number
        );
        assert!(page::says(&words), "{words}");
    }
}

// ---- the first file

#[test]
fn the_worked_file() {
    for worked in WORKED {
        let outcome = run(worked.edition, &worked.calls(), worked.total());
        assert_eq!(outcome.file, Some(worked.file()), "{worked:?}");
    }
}

#[test]
fn worked_file_is_read() {
    for worked in WORKED {
        let file = worked.file();
        let checked = Checked {
            burst_number: 7,
            camera: worked.camera,
            site_mark: counting(0x10, 16)[..].try_into().unwrap(),
            taken: 3,
            kept: 1,
            dropped: 2,
        };
        assert_eq!(check(&key(), &file), Ok(checked));
        let fetched = Fetched {
            picture: b"fox".to_vec(),
            stamp: counting(0x20, 16)[..].try_into().unwrap(),
            shot: 2,
            length: 3,
        };
        for room in [3, 4, 1_000] {
            assert_eq!(fetch(&key(), &file, 0, room), Ok(fetched.clone()));
        }
        assert_eq!(fetch(&key(), &file, 0, 2), Err(Refusal::unmarked(5)));
        assert_eq!(fetch(&key(), &file, 1, 3), Err(Refusal::unmarked(13)));
        for (place, part) in worked.records().into_iter().enumerate() {
            assert_eq!(record(&key(), &file, place as u64), part);
        }
    }
}

/// Sealing gives the part, and opening gives back what was sealed.
fn check_part(part: &Part) {
    let Part {
        nonce,
        ad,
        secret,
        message,
        sealed,
    } = part;
    let (variant, length) = (Variant::Icepole128, message.len());
    let given = seal(
        variant,
        &key(),
        nonce,
        secret,
        ad,
        &[],
        message,
        length + 32,
    );
    assert_eq!(given.as_ref(), Ok(sealed), "{part:?}");
    let opened = open(variant, &key(), nonce, ad, &[], sealed, length, 24);
    assert_eq!(opened, Ok((message.clone(), secret.clone())), "{part:?}");
}

/// The parts are sealed under the nonces and associated data that the page has
/// in its text.
#[test]
fn worked_parts() {
    for worked in WORKED {
        let parts = worked.parts();
        assert!(page::has_bytes(&parts[0].ad), "the index entry");
        for part in parts {
            assert!(page::has_bytes(&part.nonce), "{part:?}");
            check_part(&part);
        }
    }
}

/// The bytes of a first file that a name of the table stands for, if it has them.
fn bytes_named(worked: &Worked, name: &str) -> Option<Range<usize>> {
    let [record, index, closing, total] = worked.offsets;
    match name {
        "the record" => Some(record..index),
        "its record offset" => Some(index + 4..index + 8),
        "closing seal" => Some(closing..total),
        _ => {
            let fields = header_fields(worked.edition);
            let field = fields.into_iter().find(|field| field.name == name)?;
            Some(field.offset..field.offset + field.length)
        }
    }
}

/// The table has the bytes and the numbers there. What it names differs, and
/// nothing else.
#[test]
fn where_the_files_differ() {
    let rows = page::differences();
    assert_eq!(rows.len(), 10);
    let files = WORKED.map(|worked| worked.file());
    let mut others = files
        .clone()
        .map(|file| file.into_iter().map(Some).collect());
    for (what, stretches) in rows {
        let parts: [Option<&[u8]>; 2] = [0, 1].map(|at| {
            let named = bytes_named(&WORKED[at], what);
            let shown = stretches[at].as_ref().map(|stretch| stretch.bytes.clone());
            assert_eq!(shown, named, "{what}");
            let Stretch { bytes, number } = stretches[at].clone()?;
            let part = &files[at][bytes.clone()];
            if let Some(number) = number {
                assert_eq!(number_of(part), number, "{what}");
            }
            let other: &mut Vec<Option<u8>> = &mut others[at];
            other[bytes].fill(None);
            Some(part)
        });
        assert_ne!(parts[0], parts[1], "{what}");
    }
    let [first, second] = others.map(|bytes| bytes.into_iter().flatten().collect::<Vec<u8>>());
    assert_eq!(first, second);
    // Taken, kept, dropped, burst number; shot number, zero, picture length.
    assert_eq!(first.len(), 14 + 8);
}

// ---- damaged copies

fn refusal_of(file: &[u8]) -> (u32, u32) {
    let refused = check(&key(), file).expect_err("refused");
    (refused.number, refused.mark)
}

#[test]
fn every_damaged_copy() {
    let copies = damaged_copies();
    assert_eq!(copies.len(), 37);
    for copy in copies {
        let Damaged { number, mark, .. } = copy;
        let file = copy.file();
        assert_eq!(refusal_of(&file), (number, mark), "{copy:?}");
        for place in [0, 1] {
            let refused = Err(Refusal { number, mark });
            assert_eq!(fetch(&key(), &file, place, 2), refused, "{copy:?}");
            let part = record(&key(), &file, place);
            assert_eq!((part.number, part.mark, part.length), (number, mark, 0));
        }
        assert_eq!(list(&file).lines().next(), Some(&copy.line[..]), "{copy:?}");
    }
}

#[test]
fn damage_beside_the_table() {
    for worked in WORKED {
        let file = worked.file();
        assert_eq!(refusal_of(&file[..file.len() - 1]), (12, 0));
        let other_key = check(&counting(0x01, 16), &file);
        assert_eq!(other_key, Err(Refusal { number: 7, mark: 0 }));
        assert_eq!(refusal_of(&[file, vec![0]].concat()), (12, 0));
    }
}

// ---- nonces

fn xor(left: &[u8], right: &[u8]) -> Vec<u8> {
    assert_eq!(left.len(), right.len());
    left.iter().zip(right).map(|(l, r)| l ^ r).collect()
}

/// A burst with two pictures: a long one, changed from a byte on, and a short
/// one; its file without the header.
fn two_pictures(edition: Edition, camera: u32, mark: u8, stamp: u8, changed: usize) -> Vec<u8> {
    let mut long = counting(0, 300);
    long[changed..].fill(0xEE);
    let keep = |stamp: u8, picture: &[u8]| Call::Keep {
        stamp: vec![stamp; 16],
        picture: picture.to_vec(),
    };
    let begin = Call::Begin {
        key: key(),
        burst_number: 9,
        camera,
        site_mark: vec![mark; 16],
    };
    let calls = [begin, keep(1, &long), keep(stamp, b"fox"), Call::Close];
    let file = run(edition, &calls, 1_000).file.unwrap();
    file[edition.header_bytes..].to_vec()
}

/// What whoever has two files with the same pair of camera number and burst
/// number learns, and does not from files of two cameras or of two editions.
#[test]
fn one_pair_twice() {
    const LONG: usize = 300 + SEAL_BYTES;
    const CLOSING: usize = LONG + 3 + SEAL_BYTES + 2 * ENTRY_BYTES;
    // Sealed stamps and ciphertext of both records, and the sealed site mark.
    let learned = |one: &[u8], other: &[u8]| {
        let parts = [
            0..16,
            16..316,
            LONG..LONG + 16,
            LONG + 16..LONG + 19,
            CLOSING..CLOSING + 16,
        ];
        parts.map(|part| xor(&one[part.clone()], &other[part]))
    };
    let pictures = {
        let mut changed = counting(0, 300);
        changed[130..].fill(0xEE);
        xor(&counting(0, 300), &changed)
    };
    for edition in EDITIONS {
        let one = two_pictures(edition, 5, 0x11, 2, 300);
        let other = two_pictures(edition, 5, 0x22, 7, 130);
        let [stamp, picture, other_stamp, other_picture, site_mark] = learned(&one, &other);
        assert_eq!(site_mark, [0x33; 16]);
        assert_eq!((&stamp[..], &other_stamp[..]), (&[0; 16][..], &[5; 16][..]));
        // The first block that differs is the second.
        assert_eq!(picture[..256], pictures[..256]);
        assert_ne!(picture[256..], pictures[256..]);
        // Another stamp hides it.
        assert_ne!(other_picture, [0; 3]);
    }
    let one = two_pictures(EDITION_2, 5, 0x11, 2, 300);
    for (edition, camera) in [(EDITION_2, 6), (EDITION_1, 0)] {
        let other = two_pictures(edition, camera, 0x11, 2, 300);
        for part in learned(&one, &other) {
            assert_ne!(part, vec![0; part.len()], "{camera}");
        }
    }
}

// ---- the second and the third file

fn check_recorded(recorded: &Recorded, name: &str) {
    let outcome = run(EDITION_2, &recorded.calls, recorded.buffer_len);
    assert_eq!(outcome.answers, recorded.answers, "{name}");
    assert_eq!(outcome.file, Some(page::bytes(name)), "{name}");
}

#[test]
fn recorded() {
    check_recorded(&page::second_list(), "second file");
    check_recorded(&page::third_list(), "third file");
}

#[test]
fn begun() {
    let begins = page::begins();
    assert_eq!(begins.len(), 7);
    for Recorded {
        calls,
        answers,
        buffer_len,
    } in begins
    {
        let outcome = run(EDITION_2, &calls, buffer_len);
        assert_eq!(outcome.answers, answers, "{calls:?}");
    }
}

/// What check, fetch and record answer, in full.
#[test]
fn second_file_is_read() {
    let file = page::bytes("second file");
    assert_eq!(file.len(), 338);
    let checked = Checked {
        burst_number: u64::MAX,
        camera: u32::MAX,
        site_mark: counting(0xE0, 16)[..].try_into().unwrap(),
        taken: 4,
        kept: 3,
        dropped: 1,
    };
    assert_eq!(check(&key(), &file), Ok(checked));
    let kept = page::kept_pictures();
    assert_eq!(kept.len(), 3);
    for (at, kept) in kept.into_iter().enumerate() {
        let length = kept.picture.len();
        let fetched = Fetched {
            stamp: kept.stamp[..].try_into().unwrap(),
            shot: kept.shot.into(),
            length: length as u64,
            picture: kept.picture,
        };
        assert_eq!(kept.place, at);
        assert_eq!(fetch(&key(), &file, at as u64, length), Ok(fetched));
        assert_eq!(record(&key(), &file, at as u64), kept.record);
    }
}

fn pair<T>(answer: Result<T, Refusal>) -> (u32, u32) {
    answer.map_or_else(|refusal| (refusal.number, refusal.mark), |_| (0, 0))
}

#[test]
fn every_call_of_the_table() {
    let readings = page::readings();
    assert_eq!(readings.len(), 14);
    for reading in readings {
        let Reading { key, file, .. } = &reading;
        let place = reading.place as u64;
        assert_eq!(pair(check(key, file)), reading.check, "{reading:?}");
        let fetched = fetch(key, file, place, reading.room);
        assert_eq!(pair(fetched), reading.fetch, "{reading:?}");
        let part = record(key, file, place);
        assert_eq!((part.number, part.mark), reading.record, "{reading:?}");
    }
}

// ---- plans

/// The size of a plan by the page's rule, in its order.
fn size_by_rule(lengths: &[u64]) -> Result<Size, u32> {
    if lengths.len() > 60 {
        return Err(9);
    }
    if lengths.iter().any(|length| *length > 1_048_576) {
        return Err(10);
    }
    let blocks = |bytes: u64| if bytes == 0 { 1 } else { bytes.div_ceil(128) };
    let seal = |ad, message| 1 + blocks(ad) + blocks(message);
    let pictures: Vec<u64> = lengths.iter().copied().filter(|l| *l > 0).collect();
    let kept = pictures.len() as u64;
    let records: u64 = pictures.iter().map(|length| length + 32).sum();
    let of_records: u64 = pictures.iter().map(|length| seal(12, *length)).sum();
    Ok(Size {
        file_length: 40 + records + 12 * kept + 32,
        p12: kept + 1,
        p6: of_records + seal(40 + 12 * kept, 0),
    })
}

/// A buffer of the file length takes the whole plan. In one byte less the keep
/// of the last picture is refused with 11, or begin and then all with 8.
fn check_buffers(lengths: &[u64], file_length: u64) {
    let lengths: Vec<usize> = lengths.iter().map(|length| *length as usize).collect();
    let calls = list_of(7, &lengths);
    let numbers = |buffer_len: u64| -> Vec<u32> {
        let mut burst = PlainBurst::at_first(EDITION_2);
        let mut number = |call: &Call| burst.answer(call, buffer_len as usize).number;
        calls.iter().map(&mut number).collect()
    };
    let mut expected = vec![0; calls.len()];
    assert_eq!(numbers(file_length), expected, "{lengths:?}");
    match lengths.iter().rposition(|length| *length > 0) {
        Some(last) => expected[1 + last] = 11,
        None => {
            expected.fill(8);
            expected[0] = 11;
        }
    }
    assert_eq!(numbers(file_length - 1), expected, "{lengths:?}");
}

#[test]
fn every_plan() {
    let plans = page::plans();
    assert_eq!(plans.len(), 15);
    for plan in &plans {
        let lengths = &plan.lengths[..];
        assert_eq!(size_up(lengths), plan.size, "{plan:?}");
        assert_eq!(size_by_rule(lengths), plan.size, "rule, {plan:?}");
        if let Ok(size) = plan.size {
            check_buffers(lengths, size.file_length);
        }
    }
    let numbers: BTreeSet<u32> = plans.iter().filter_map(|plan| plan.size.err()).collect();
    assert_eq!(numbers, BTreeSet::from([9, 10]));
}

/// What the words beside the table say of it, and of the empty plan.
#[test]
fn remarks_on_plans() {
    let plans = page::plans();
    let total = |lengths: &[u64]| {
        let plan = plans.iter().find(|plan| plan.lengths == lengths).unwrap();
        plan.size.unwrap().file_length as usize
    };
    assert_eq!(total(&[0, 3, 0]), WORKED[1].file().len());
    assert_eq!(total(&[0; 60]), page::bytes("third file").len());
    assert_eq!(total(&[1_048_576; 60]), file_lengths(EDITION_2).1);
    for kept in [7, 8, 18, 19] {
        let plan = plans.iter().find(|plan| plan.lengths == vec![1; kept]);
        let bytes = EDITION_2.header_bytes + ENTRY_BYTES * kept;
        let what = format!("header and index have {bytes} bytes");
        assert_eq!(plan.unwrap().what, what);
    }
    let empty = size_up(&[]).unwrap();
    let [length, p12, p6] = [empty.file_length, empty.p12, empty.p6];
    let words = format!("The empty plan has an answer: file length {length}, P12 {p12}, P6 {p6}.");
    assert!(page::says(&words), "{words}");
}

/// The page's rule, on plans of up to 63 shots, some with a picture that is too
/// long.
#[test]
fn plans_at_random() {
    let mut generator = SplitMix64::new(13);
    let mut met = BTreeSet::new();
    for _ in 0..1_000 {
        let longest = [3, 300, 1_000][generator.below(3)];
        let mut lengths: Vec<u64> = (0..generator.below(63))
            .map(|_| generator.below(longest) as u64)
            .collect();
        if generator.below(8) == 0 {
            lengths.push(1_048_577);
        }
        let size = size_by_rule(&lengths);
        assert_eq!(size_up(&lengths), size, "{lengths:?}");
        if let Ok(size) = size {
            check_buffers(&lengths, size.file_length);
        }
        met.insert(size.err());
    }
    assert_eq!(met, BTreeSet::from([None, Some(9), Some(10)]));
}

// ---- fronts without seals

/// All ten rules are broken somewhere.
#[test]
fn every_front() {
    let fronts = page::fronts();
    assert_eq!(fronts.len(), 68);
    let mut rules = BTreeSet::new();
    for row in fronts {
        let FrontRow { file, what, .. } = &row;
        assert_eq!(check_rules(file, what), row.rule, "{what}");
        assert_eq!(refusal_of(file), (row.number, 0), "{what}");
        assert_eq!(list(file).lines().last(), Some(&row.line[..]), "{what}");
        rules.extend(row.rule);
    }
    assert!(rules.into_iter().eq(1..=10));
}

// ---- listings

#[test]
fn listings() {
    for worked in WORKED {
        let listing = worked.listing();
        assert_eq!((list(&worked.file()), listing.len()), (listing, 55));
        let mut long = worked.file();
        long.resize(LONGEST_LISTED + 1, 0);
        assert_eq!(list(&long), page::text("too long"));
    }
    for name in ["second", "third"] {
        let file = page::bytes(&format!("{name} file"));
        assert_eq!(list(&file), page::text(&format!("{name} listing")));
    }
    for length in [0, 63, 64, 71, 72, LONGEST_LISTED] {
        assert_eq!(list(&vec![0; length]), page::text("broken"), "{length}");
    }
    assert_eq!(LONGEST_LISTED, 65_536);
}

// ---- the front rules

/// The bytes at the front of a file that the rules so far have shown to be
/// there.
struct Shown<'a>(&'a [u8]);

impl Shown<'_> {
    /// The number at an offset. Bytes that are not shown would panic.
    fn number(&self, at: u64, length: usize) -> u64 {
        number_of(&self.0[at as usize..][..length])
    }
}

/// The first rule that a file breaks, of the rules as the page has them, in its
/// order.
fn broken_rule(file: &[u8]) -> Option<usize> {
    if file.len() < 64 {
        return Some(1);
    }
    let shown = Shown(&file[..64]);
    let edition = shown.number(0, 2);
    let (least, start) = match edition {
        1 => (64, 32),
        2 => (72, 40),
        _ => return Some(2),
    };
    if file.len() < least {
        return Some(2);
    }
    let shown = Shown(&file[..least]);
    if shown.number(16, 4) != start {
        return Some(3);
    }
    if edition == 2 && (shown.number(32, 4) == 0 || shown.number(36, 4) != 0) {
        return Some(4);
    }
    let [taken, kept, dropped] = [2, 4, 6].map(|at| shown.number(at, 2));
    if taken > 60 || taken != kept + dropped {
        return Some(5);
    }
    let [index, closing, total] = [20, 24, 28].map(|at| shown.number(at, 4));
    if closing != index + 12 * kept {
        return Some(6);
    }
    if total != closing + 32 || total != file.len() as u64 {
        return Some(7);
    }
    let shown = Shown(&file[..closing as usize]);
    let entries: Vec<u64> = (0..kept).map(|place| index + 12 * place).collect();
    broken_in_index(&shown, &entries, taken, (start, index))
}

/// The rules of the index, whose entries begin at these offsets. The records
/// are to touch from a start to an end.
fn broken_in_index(
    shown: &Shown,
    entries: &[u64],
    taken: u64,
    (start, end): (u64, u64),
) -> Option<usize> {
    let mut last_shot = 0;
    for at in entries {
        let shot = shown.number(*at, 2);
        if shot <= last_shot || shot > taken {
            return Some(8);
        }
        last_shot = shot;
    }
    let length = |at: &u64| shown.number(*at + 8, 4);
    let in_range = |at: &u64| (1..=1_048_576).contains(&length(at));
    let zero = |at: &u64| shown.number(*at + 2, 2) == 0;
    if !entries.iter().all(zero) || !entries.iter().all(in_range) {
        return Some(9);
    }
    let mut touching = start;
    for at in entries {
        if shown.number(*at + 4, 4) != touching {
            return Some(10);
        }
        touching += length(at) + 32;
    }
    (touching != end).then_some(10)
}

/// The reference's front rules agree. Gives the first rule that is broken.
fn check_rules(file: &[u8], what: &str) -> Option<usize> {
    let broken = broken_rule(file);
    assert_eq!(front(file).is_ok(), broken.is_none(), "{what}");
    broken
}

/// Every length up to a few bytes more, and every value of every byte of
/// header and index. The burst number is free; the camera number is but for 0.
#[test]
fn front_rules_byte_by_byte() {
    for (edition, cameras) in [(EDITION_1, 0), (EDITION_2, 4 * 255 - 1)] {
        for (lengths, still_right) in [
            (&[][..], 0),
            (&[0, 3, 0], 2),
            (&[5, 0, 7], 2),
            (&[0, 5, 0, 7, 1, 0, 0, 0, 0], 2 + 1 + 4),
        ] {
            let mut file = unsealed(edition, lengths);
            assert_eq!(check_rules(&file, "whole"), None);
            for length in 0..file.len() {
                assert!(check_rules(&file[..length], "cut").is_some());
            }
            let longer = [&file[..], &[0; 3]].concat();
            assert_eq!(check_rules(&longer, "longer"), Some(7));
            let kept = lengths.iter().filter(|length| **length > 0).count();
            let closing = file.len() - SEAL_BYTES;
            let index = closing - ENTRY_BYTES * kept;
            let header = (0..8).chain(16..edition.header_bytes);
            let mut obeyed = 0;
            for at in header.chain(index..closing) {
                let byte = file[at];
                for value in (0..=255).filter(|value| *value != byte) {
                    file[at] = value;
                    let broken = check_rules(&file, &format!("{at} {value}"));
                    obeyed += usize::from(broken.is_none());
                }
                file[at] = byte;
            }
            assert_eq!(obeyed, still_right + cameras, "{edition:?}, {lengths:?}");
        }
    }
}

/// Fields changed at random, some to where a sum would wrap, in files that may
/// be cut. Every rule is broken by some.
#[test]
fn front_rules_at_random() {
    let mut generator = SplitMix64::new(12);
    let (mut obeyed, mut met) = (0, BTreeSet::new());
    for case in 0..200_000 {
        let edition = EDITIONS[generator.below(2)];
        // So every field of 4 bytes stands at a multiple of 4.
        let count = generator.below(5);
        let lengths: Vec<usize> = (0..count).map(|_| 4 * generator.below(4)).collect();
        let mut file = unsealed(edition, &lengths);
        for _ in 0..generator.below(4) {
            let at = generator.below(file.len() / 4) * 4;
            let word: [u8; 4] = file[at..at + 4].try_into().unwrap();
            let steps = [
                1,
                8,
                12,
                32,
                1 << 16,
                1 << 31,
                0u32.wrapping_sub(12),
                u32::MAX,
            ];
            let step = steps[generator.below(steps.len())];
            let changed = u32::from_le_bytes(word).wrapping_add(step);
            file[at..at + 4].copy_from_slice(&changed.to_le_bytes());
        }
        if generator.below(8) == 0 {
            file.truncate(generator.below(file.len() + 1));
        }
        match check_rules(&file, &format!("case {case}")) {
            Some(rule) => _ = met.insert((edition.number, rule)),
            None => obeyed += 1,
        }
    }
    assert!((50_000..150_000).contains(&obeyed), "{obeyed}");
    let all = [1, 2].map(|edition| (1..=10).map(move |rule| (edition, rule)));
    assert!(met.into_iter().eq(all.into_iter().flatten()));
}

// ---- ICEPOLE-128

/// The words of a state in the order of their numbers, x + 4y.
fn in_word_order<T: Copy>(table: [[T; 5]; 4]) -> Vec<T> {
    (0..20).map(|w| table[w % 4][w / 4]).collect()
}

#[test]
fn tables_of_the_permutation() {
    assert_eq!(page::words("starting words"), in_word_order(STARTING_WORDS));
    assert_eq!(page::words("constants"), ROUND_CONSTANTS);
    assert_eq!(page::numbers("offsets"), in_word_order(OFFSETS));
    let p6: [fn(State) -> State; 2] = [bits::p6, words::p6];
    for p6 in p6 {
        assert_eq!(page::words("P6 of zero"), in_word_order(p6(ZERO_STATE)));
    }
}

#[test]
fn steps_of_a_round() {
    let shown = ["mu", "rho", "pi", "psi", "kappa"];
    for (name, after) in shown.iter().zip(bits::steps(STARTING_WORDS, 0)) {
        let block = page::words(&format!("after {name}"));
        assert_eq!(block, in_word_order(after), "after {name}");
    }
}

/// The lengths of associated data that closing seals have, as the page says.
#[test]
fn header_and_index() {
    let length = |edition: Edition, pictures| edition.header_bytes + ENTRY_BYTES * pictures;
    let [first, second] = [8, 9].map(|pictures| length(EDITION_1, pictures));
    let of_1 = format!("edition 1 with 8 pictures are {first} bytes, and with 9 pictures {second}");
    let [first, second, third] = [7, 8, 18].map(|pictures| length(EDITION_2, pictures));
    let of_2 = format!("{first} bytes with 7 pictures, {second}\nwith 8, and {third} with 18");
    let words = format!("Header and index of a file of {of_1}. In edition 2 they are {of_2}.");
    assert!(page::says(&words), "{words}");
}

#[test]
fn vectors_of_sealing() {
    for part in page::vectors() {
        check_part(&part);
    }
}
