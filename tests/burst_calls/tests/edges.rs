//! The edges of the scope paper, "Marked values and edges", and of request N1:
//! the recorder makes files of edition 2, and files of both editions are read.

use burst_calls::lent::{check_same, Lent};
use burst_calls::list::{burst_of, bytes, keep, shots_of, CAMERA, CAMERAS, KEY, SITE_MARK};
use burst_calls::reading::{
    check_check, check_fetch, check_gives_back, check_reference_gives_back, CHECK_INFO, FETCH_INFO,
};
use burst_calls::recording::{Performed, Recording};
use burst_calls::script::{answer_bytes, script_of};
use reference::burst::reader::RecordPart;
use reference::burst::{Answer, Call, PlainBurst, Recorder, EDITION_1, EDITION_2};
use reference::random::SplitMix64;

/// A list on a buffer, with room for every answer.
fn recorded(burst_number: u64, calls: &[Call], buffer: usize, what: &str) -> Performed {
    let room = 8 * (calls.len() + 1);
    let recording = Recording::new(burst_number, script_of(calls), buffer, room);
    recording.check(&|| what.into())
}

/// Both readers give the burst back.
fn check_read(burst: &PlainBurst, file: &[u8], what: &dyn Fn() -> String) {
    check_gives_back(burst, file, what);
    check_reference_gives_back(burst, file, what);
}

/// The shots, 0 for a dropped one, are all accepted on a buffer of exactly
/// `total` bytes, and both readers give them back, as they do with the same
/// shots in edition 1. One byte less is too short for the last kept picture.
/// Gives the file.
fn made(burst_number: u64, lengths: &[usize], total: usize) -> Vec<u8> {
    let what = || {
        format!(
            "burst {burst_number} of {} shots, total {total}",
            lengths.len()
        )
    };
    let calls = shots_of(lengths);
    let performed = recorded(burst_number, &calls, total, &what());
    let shots = (0..=lengths.len() as u64).chain([total as u64]);
    assert_eq!(performed.shots_and_totals(), shots.collect::<Vec<_>>());
    assert_eq!(performed.numbers(), vec![0; lengths.len() + 2]);
    let file = performed.buffer;
    check_read(&burst_of(EDITION_2, burst_number, lengths), &file, &what);
    let old = burst_of(EDITION_1, burst_number, lengths);
    assert_eq!(old.total(), total - 8);
    check_read(&old, &old.file(), &|| format!("edition 1, {}", what()));

    let short = recorded(burst_number, &calls, total - 1, &what());
    let refused = lengths.iter().rposition(|length| *length > 0);
    for (at, number) in short.numbers().into_iter().enumerate() {
        let expected = match refused {
            // Nothing was kept, so the buffer has 71 bytes.
            None if at == 0 => 11,
            None => 8,
            Some(shot) if at == shot + 1 => 11,
            Some(_) => 0,
        };
        assert_eq!(number, expected, "call {at} with a byte less, {}", what());
    }

    // One byte more, or twice as much, and the later bytes stay.
    for spare in [1, total] {
        recorded(burst_number, &calls, total + spare, &what());
    }
    file
}

/// Fetch into exactly the picture's length, one byte less, and one more; the
/// info exact, one byte less, and one more.
fn check_sizes(file: &[u8], place: usize, length: usize) {
    let what = || format!("{} bytes", file.len());
    for (out_len, info_len, number) in [
        (length, FETCH_INFO, 0),
        (length - 1, FETCH_INFO, 5),
        (length, FETCH_INFO - 1, 5),
        (length - 1, FETCH_INFO - 1, 5),
        (0, 0, 5),
        (length + 1, FETCH_INFO + 1, 0),
    ] {
        let given = check_fetch(&KEY, file, place, (out_len, info_len), &what);
        assert_eq!(given, (number, 0), "out {out_len}, info {info_len}");
    }
    for (info_len, number) in [(CHECK_INFO, 0), (CHECK_INFO - 1, 5), (0, 5), (35, 0)] {
        let given = check_check(&KEY, file, info_len, &what);
        assert_eq!(given, (number, 0), "info {info_len}");
    }
}

#[test]
fn pictures_around_a_block() {
    for length in [1, 127, 128, 129] {
        let file = made(9, &[length], 116 + length);
        let entry = [1, 0, 0, 0, 40, 0, 0, 0, length as u8, 0, 0, 0];
        assert_eq!(file[72 + length..84 + length], entry);
        check_sizes(&file, 0, length);
        check_sizes(&burst_of(EDITION_1, 9, &[length]).file(), 0, length);
    }
    made(10, &[1, 127, 128, 129, 0, 256, 257], 40 + 898 + 6 * 44 + 32);
}

#[test]
fn longest_picture() {
    let file = made(11, &[1_048_576], 1_048_692);
    check_sizes(&file, 0, 1_048_576);
    // The index offset needs more than two bytes.
    assert_eq!(file[20..24], [0x48, 0, 0x10, 0]);
    made(11, &[0, 65_536, 0, 65_535, 1], 40 + 131_072 + 3 * 44 + 32);
}

#[test]
fn picture_that_is_too_long_or_empty() {
    for length in [0, 1_048_577, 1_048_578, 2 * 1_048_576] {
        let calls = [keep(1, length), Call::Drop, keep(2, 3), Call::Close];
        for buffer in [72, 119, 2_200_000] {
            let performed = recorded(12, &calls, buffer, "a length out of range");
            let keeps_3 = buffer >= 119;
            let expected = if keeps_3 {
                [0, 0, 1, 2, 119]
            } else {
                [0, 0, 1, 0, 72]
            };
            assert_eq!(performed.numbers()[1], 10);
            assert_eq!(performed.shots_and_totals(), expected);
        }
    }
}

const LONGEST: usize = 1_048_576;

/// The length of the longest file there is.
const LONGEST_FILE: usize = 62_917_272;

/// Sixty longest pictures, one more shot, and close.
fn longest_list() -> Vec<Call> {
    let shots = (1..=60).map(|shot| Call::Keep {
        stamp: vec![shot; 16],
        picture: bytes(shot.into(), LONGEST),
    });
    shots.chain([Call::Drop, Call::Close]).collect()
}

/// The answers of the list on a buffer, and the buffer after it; by the calls
/// alone, to spare memory.
fn longest_recorded(calls: &[Call], buffer_len: usize) -> (Vec<u8>, Vec<u8>) {
    let mut recording = Recording::new(12, script_of(calls), buffer_len, 8 * 63);
    let given = burst_calls::replay(
        &recording.key,
        recording.burst_number,
        recording.camera,
        &recording.site_mark,
        &recording.script,
        &mut recording.buffer,
        &mut recording.answers,
    );
    assert_eq!(given, (63, 1));
    (recording.answers, recording.buffer)
}

/// The buffer is as the reference's recorder leaves it. Only the last place is
/// fetched.
#[test]
fn sixty_longest_pictures() {
    let calls = longest_list();
    let (answers, buffer) = longest_recorded(&calls, LONGEST_FILE);
    let mut expected: Vec<Answer> = (0..=60).map(Answer::accepted).collect();
    expected.extend([Answer::refused(9), Answer::accepted(LONGEST_FILE as u64)]);
    assert!(answers == answer_bytes(&expected), "answers");
    let mut file = vec![0; LONGEST_FILE];
    let (mut recorder, _) = Recorder::begin(&KEY, 12, CAMERA, &SITE_MARK, &mut file);
    for call in &calls[..60] {
        if let Call::Keep { stamp, picture } = call {
            recorder.keep(stamp, picture, &mut file);
        }
    }
    recorder.close(&mut file);
    check_same(&buffer, &file, &|| "the longest file".into());
    drop(file);

    let mut info = [0; CHECK_INFO];
    assert_eq!(burst_calls::check(&KEY, &buffer, &mut info), (0, 0));
    assert_eq!(info[24..30], [60, 0, 60, 0, 0, 0]);
    let part = RecordPart {
        number: 0,
        mark: 0,
        offset: 40 + 59 * (LONGEST + 32),
        length: LONGEST + 32,
    };
    assert_eq!(burst_calls::record(&KEY, &buffer, 59), part);
    assert_eq!(burst_calls::record(&KEY, &buffer, 60).number, 13);
    let (mut out, mut info) = (Lent::of(LONGEST), Lent::of(FETCH_INFO));
    let fetched = burst_calls::fetch(&KEY, &buffer, 59, out.slice(), info.slice());
    assert_eq!(fetched, (0, 0));
    out.check_written(&bytes(60, LONGEST), &|| "picture".into());
    let written = [&[60, 0, 0, 0, 16, 0][..], &[60; 16]].concat();
    info.check_written(&written, &|| "info".into());
}

/// One byte less than the longest file: the 60th picture is turned down, and
/// the next shot is the 60th.
#[test]
fn sixty_longest_pictures_and_a_byte_less() {
    let (answers, buffer) = longest_recorded(&longest_list(), LONGEST_FILE - 1);
    let mut expected: Vec<Answer> = (0..=59).map(Answer::accepted).collect();
    let total = LONGEST_FILE - LONGEST - 44;
    expected.extend([Answer::refused(11), Answer::accepted(60)]);
    expected.push(Answer::accepted(total as u64));
    assert!(answers == answer_bytes(&expected), "answers");
    let mut info = [0; CHECK_INFO];
    assert_eq!(
        burst_calls::check(&KEY, &buffer[..total], &mut info),
        (0, 0)
    );
    assert_eq!(info[24..30], [60, 0, 59, 0, 1, 0]);
}

/// The longest file of edition 1 is checked, and with its last byte changed
/// refused.
#[test]
fn longest_file_of_edition_1() {
    let mut file = burst_of(EDITION_1, 12, &[LONGEST; 60]).file();
    assert_eq!(file.len(), LONGEST_FILE - 8);
    let mut info = [9; CHECK_INFO];
    assert_eq!(burst_calls::check(&KEY, &file, &mut info), (0, 0));
    assert_eq!(info[24..], [60, 0, 60, 0, 0, 0, 0, 0, 0, 0]);
    *file.last_mut().unwrap() ^= 1;
    assert_eq!(burst_calls::check(&KEY, &file, &mut info), (7, 0));
}

#[test]
fn sixty_shots() {
    made(13, &[1; 60], 72 + 60 * 45);
    made(14, &[0; 60], 72);
    let mixed: Vec<usize> = (0..60).map(|i| i % 3).collect();
    made(15, &mixed, 72 + 20 * 45 + 20 * 46);
}

/// The 61st shot is turned down, kept or dropped, and so is every one after it;
/// close then closes the sixty.
#[test]
fn sixty_first_shot() {
    for sixty in [[0; 60], [1; 60]] {
        let mut calls = shots_of(&sixty);
        calls.pop();
        let later = [
            keep(61, 5),
            Call::Drop,
            keep(62, 1),
            Call::Drop,
            Call::Close,
        ];
        calls.extend(later);
        let performed = recorded(16, &calls, 10_000, "61st shot");
        let numbers = performed.numbers();
        assert_eq!(numbers[..61], [0; 61]);
        assert_eq!(numbers[61..], [9, 9, 9, 9, 0]);
        let file = performed.file().unwrap();
        let kept = sixty[0];
        assert_eq!(file.len(), 72 + 60 * 45 * kept);
        assert_eq!(performed.shots_and_totals()[65], file.len() as u64);
        assert_eq!(file[2..4], [60, 0]);
        check_gives_back(&burst_of(EDITION_2, 16, &sixty), file, &|| "sixty".into());
    }
}

#[test]
fn empty_burst_of_72_bytes() {
    let file = made(17, &[], 72);
    let mut header = [0; 40];
    (header[0], header[8], header[16]) = (2, 17, 40);
    (header[20], header[24], header[28]) = (40, 40, 72);
    header[32..36].copy_from_slice(&[0x0A, 0x0B, 0x0C, 0x0D]);
    assert_eq!(file[..40], header);
    // No buffer below 72 bytes will do, and it stays as it was.
    for length in 0..72 {
        let performed = recorded(17, &shots_of(&[]), length, "too short");
        assert_eq!(performed.numbers(), [11, 8]);
    }
}

#[test]
fn last_shot_dropped() {
    let file = made(18, &[4, 0], 120);
    assert_eq!(file[2..8], [2, 0, 1, 0, 1, 0]);
    made(18, &[0, 0, 0], 72);
    made(18, &[0, 1, 2, 0, 0], 40 + 33 + 34 + 24 + 32);
}

/// Header and index are 128 bytes, a full block, with eight kept pictures in
/// edition 1; with seven they are 124 bytes in edition 2, and with eight 136.
#[test]
fn header_and_index_fill_a_block() {
    for kept in [7, 8, 9] {
        let mut lengths = vec![2; kept];
        lengths.insert(3, 0);
        made(19, &lengths, 40 + 34 * kept + 12 * kept + 32);
    }
}

/// Burst numbers use all their eight bytes, in header, nonce and info.
#[test]
fn burst_numbers() {
    let bits = (0..64).map(|bit| 1 << bit);
    for burst_number in bits.chain([0, u64::MAX, u64::MAX - 1, 0x0102_0304_0506_0708]) {
        let file = made(burst_number, &[3], 119);
        assert_eq!(file[8..16], burst_number.to_le_bytes());
    }
}

/// Camera numbers use all their four bytes, in header, nonce and info; the four
/// bytes behind are zero.
#[test]
fn camera_numbers() {
    let mut generator = SplitMix64::new(0xCA3E_7A00);
    let bits = (0..32).map(|bit| 1 << bit);
    let random = (0..50).map(|_| generator.next_word() as u32);
    let lengths = [3, 0, 130];
    for camera in bits.chain(CAMERAS).chain(random) {
        let mut recording = Recording::new(23, script_of(&shots_of(&lengths)), 300, 40);
        recording.camera = camera;
        let what = || format!("camera {camera}");
        let performed = recording.check(&what);
        let file = performed.file().unwrap();
        assert_eq!(file[32..36], camera.to_le_bytes());
        assert_eq!(file[36..40], [0; 4]);
        let burst = PlainBurst {
            camera,
            ..burst_of(EDITION_2, 23, &lengths)
        };
        check_read(&burst, file, &what);
    }
}

/// Every buffer length around what keeps and close need, on one list.
#[test]
fn every_buffer_length() {
    // Each in turn needs 117, 165 and 211 bytes.
    let calls = [keep(1, 1), keep(2, 4), Call::Drop, keep(3, 2), Call::Close];
    for length in 0..300 {
        let performed = recorded(20, &calls, length, "every length");
        if length >= 72 {
            let kept = performed.numbers()[1..5]
                .iter()
                .filter(|n| **n == 0)
                .count();
            assert!((1..=4).contains(&kept));
        }
    }
    let numbers = |length| recorded(20, &calls, length, "by hand").numbers();
    assert_eq!(numbers(71), [11, 8, 8, 8, 8, 8]);
    assert_eq!(numbers(116), [0, 11, 11, 0, 11, 0]);
    assert_eq!(numbers(117), [0, 0, 11, 0, 11, 0]);
    assert_eq!(numbers(162), [0, 0, 11, 0, 11, 0]);
    assert_eq!(numbers(163), [0, 0, 11, 0, 0, 0]);
    assert_eq!(numbers(164), [0, 0, 11, 0, 0, 0]);
    assert_eq!(numbers(165), [0, 0, 0, 0, 11, 0]);
    assert_eq!(numbers(210), [0, 0, 0, 0, 11, 0]);
    assert_eq!(numbers(211), [0, 0, 0, 0, 0, 0]);
}

/// A begin that is turned down turns every later call down, and leaves the
/// buffer as it was.
#[test]
fn refused_begin() {
    let calls = [keep(1, 3), Call::Drop, Call::Close, keep(2, 1), Call::Close];
    for (key, site_mark, camera, buffer, number) in [
        (15, 16, 1, 200, 1),
        (17, 16, 1, 200, 1),
        (0, 16, 1, 200, 1),
        (16, 15, 1, 200, 3),
        (16, 0, 1, 200, 3),
        (16, 17, 1, 200, 3),
        (16, 16, 0, 200, 15),
        (16, 16, 0, 72, 15),
        (16, 16, 1, 71, 11),
        (16, 16, 1, 64, 11),
        (16, 16, 1, 0, 11),
    ] {
        let mut recording = Recording::new(21, script_of(&calls), buffer, 48);
        recording.key = bytes(1, key);
        recording.site_mark = bytes(2, site_mark);
        recording.camera = camera;
        let performed = recording.check(&|| "refused begin".into());
        assert_eq!(performed.numbers(), [number, 8, 8, 8, 8, 8]);
        assert_eq!(performed.shots_and_totals(), [0; 6]);
        assert_eq!(performed.buffer, recording.buffer);
    }
}
