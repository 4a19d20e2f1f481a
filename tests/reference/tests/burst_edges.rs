//! The edges of the scope paper, "Marked values and edges", in both editions.

mod help;

use help::{assert_gives_back, bit_seal, buffer_of, bytes, list_of, record_call, with_camera};
use help::{KEY, ROOM, SITE_MARK, STARTS};
use reference::burst::plain::{run, Call, Outcome};
use reference::burst::reader::{check, fetch, record};
use reference::burst::{Answer, Edition, Recorder, Refusal, EDITION_1, EDITION_2};

/// The plain burst of this edition, and for edition 2 the recorder, make the
/// same file on a buffer of exactly its length, the reader gives it back, and
/// one byte less is too short.
fn made(edition: Edition, calls: &[Call], total: usize) -> Outcome {
    let outcome = run(edition, calls, total);
    assert!(outcome.answers.iter().all(|answer| answer.number == 0));
    assert_eq!(
        outcome.answers.last(),
        Some(&Answer::accepted(total as u64))
    );
    let file = outcome.file.as_ref().unwrap();
    assert_eq!(file.len(), total);
    if edition == EDITION_2 {
        let mut buffer = buffer_of(total);
        let mut recorder = Recorder::REFUSED;
        for (call, answer) in calls.iter().zip(&outcome.answers) {
            assert_eq!(record_call(&mut recorder, call, &mut buffer), *answer);
        }
        assert!(*file == buffer, "files differ");
    }
    assert_gives_back(&outcome.burst, file);

    let refused = |answer: &Answer| answer.number == 11;
    assert!(run(edition, calls, total - 1).answers.iter().any(refused));
    outcome
}

/// The list of these lengths in both editions, where `behind` bytes follow the
/// header; each with its picture offset.
fn made_in_both(
    burst_number: u64,
    lengths: &[usize],
    behind: usize,
) -> [(Edition, usize, Outcome); 2] {
    let calls = list_of(burst_number, lengths);
    STARTS.map(|(edition, start)| (edition, start, made(edition, &calls, start + behind)))
}

/// The closing seal is over header and index, by the bit-level version.
fn assert_closing((edition, start): (Edition, usize), burst: u64, file: &[u8], index: usize) {
    let (front, closing) = file.split_at(file.len() - 32);
    let ad = [&front[..start], &front[index..]].concat();
    let sealed = bit_seal(edition, burst, 0, &SITE_MARK, &ad, &[]);
    assert_eq!(closing, sealed);
}

#[test]
fn pictures_around_a_block() {
    for length in [1, 127, 128, 129] {
        for (edition, start, outcome) in made_in_both(9, &[length], 76 + length) {
            let file = outcome.file.unwrap();
            let index = start + 32 + length;
            let entry = [1, 0, 0, 0, start as u8, 0, 0, 0, length as u8, 0, 0, 0];
            assert_eq!(file[index..index + 12], entry);
            let picture = bytes(0, length);
            let sealed = bit_seal(edition, 9, 1, &bytes(100, 16), &entry, &picture);
            assert_eq!(file[start..index], sealed);
            assert_closing((edition, start), 9, &file, index);
        }
    }
}

#[test]
fn pictures_around_a_block_one_after_the_other() {
    made_in_both(10, &[1, 127, 128, 129, 0, 256, 257], 898 + 6 * 44 + 32);
}

#[test]
fn longest_picture() {
    made_in_both(11, &[1_048_576], 1_048_652);
    for (edition, start) in STARTS {
        let outcome = run(edition, &list_of(11, &[1_048_577]), ROOM);
        assert_eq!(outcome.answers[1], Answer::refused(10));
        assert_eq!(outcome.answers[2], Answer::accepted(start as u64 + 32));
    }
}

/// The longest files there are. Fetch is tried at the last place only.
#[test]
fn sixty_longest_pictures() {
    let calls = list_of(12, &[1_048_576; 60]);
    for (edition, total) in [(EDITION_1, 62_917_264), (EDITION_2, 62_917_272)] {
        let outcome = run(edition, &calls, total);
        assert_eq!(outcome.answers[61], Answer::accepted(total as u64));
        let file = outcome.file.unwrap();
        assert_eq!(file.len(), total);
        assert_eq!(file[20..24], (total as u32 - 752).to_le_bytes());
        let last = fetch(&KEY, &file, 59, 1_048_576).unwrap();
        assert_eq!((last.shot, last.length), (60, 1_048_576));
        assert!(last.picture == bytes(59, 1_048_576));
        if edition == EDITION_2 {
            assert_recorded(&calls, &file);
        }
    }
}

/// The recorder makes this file; close refuses a buffer of one byte less.
fn assert_recorded(calls: &[Call], file: &[u8]) {
    let mut buffer = vec![1; file.len()];
    let mut recorder = Recorder::REFUSED;
    let (close, before) = calls.split_last().unwrap();
    for call in before {
        assert_eq!(record_call(&mut recorder, call, &mut buffer).number, 0);
    }
    let one_less = recorder.close(&mut buffer[..file.len() - 1]);
    assert_eq!(one_less, Answer::refused(11));
    assert_eq!(record_call(&mut recorder, close, &mut buffer).number, 0);
    assert!(buffer == file, "files differ");
}

#[test]
fn sixty_shots() {
    made_in_both(13, &[1; 60], 32 + 60 * 45);
    made_in_both(14, &[0; 60], 32);
    let mixed: Vec<usize> = (0..60).map(|i| i % 3).collect();
    for (_, _, outcome) in made_in_both(15, &mixed, 32 + 20 * 45 + 20 * 46) {
        assert_eq!(outcome.burst.dropped(), 20);
    }
}

#[test]
fn sixty_first_shot() {
    let full = [0; 61];
    let mut kept = full;
    kept[60] = 5;
    for (edition, start) in STARTS {
        let answers = run(edition, &list_of(16, &full), ROOM).answers;
        assert_eq!(answers[60], Answer::accepted(60));
        assert_eq!(answers[61], Answer::refused(9));
        assert_eq!(answers[62], Answer::accepted(start as u64 + 32));
        let answers = run(edition, &list_of(16, &kept), ROOM).answers;
        assert_eq!(answers[61], Answer::refused(9));
    }
}

/// 64 bytes in edition 1, 72 in edition 2.
#[test]
fn empty_bursts() {
    for (edition, start, outcome) in made_in_both(17, &[], 32) {
        let file = outcome.file.unwrap();
        let mut header = vec![0; start];
        (header[0], header[8]) = (edition.number as u8, 17);
        let [start_byte, total_byte] = [start as u8, start as u8 + 32];
        (header[16], header[20]) = (start_byte, start_byte);
        (header[24], header[28]) = (start_byte, total_byte);
        if edition == EDITION_2 {
            header[32..36].copy_from_slice(&[0x0A, 0x0B, 0x0C, 0x0D]);
        }
        assert_eq!(file[..start], header);
        assert_closing((edition, start), 17, &file, start);
        let refused = fetch(&KEY, &file, 0, ROOM);
        assert_eq!(refused, Err(Refusal::unmarked(13)));
    }
}

#[test]
fn last_shot_dropped() {
    for (edition, start, outcome) in made_in_both(18, &[4, 0], 80) {
        assert_eq!((outcome.burst.taken(), outcome.burst.kept()), (2, 1));
        let file = outcome.file.unwrap();
        assert_eq!(file[2..8], [2, 0, 1, 0, 1, 0]);
        assert_eq!(fetch(&KEY, &file, 0, 4).unwrap().shot, 1);
        let all_dropped = made(edition, &list_of(18, &[0, 0, 0]), start + 32);
        assert_eq!(record(&KEY, &all_dropped.file.unwrap(), 0).number, 13);
    }
}

/// With eight kept pictures header and index of edition 1 are 128 bytes, a full
/// block; those of edition 2 are 124 with seven and 136 with eight.
#[test]
fn header_and_index_around_a_block() {
    for kept in [7, 8, 9] {
        let mut lengths = vec![2; kept];
        lengths.insert(3, 0);
        for (edition, start, outcome) in made_in_both(19, &lengths, 46 * kept + 32) {
            let index = start + 34 * kept;
            assert_closing((edition, start), 19, &outcome.file.unwrap(), index);
        }
    }
}

/// Burst numbers use all their eight bytes, in header and nonce.
#[test]
fn largest_burst_number() {
    for (edition, start, outcome) in made_in_both(u64::MAX, &[3], 79) {
        let file = outcome.file.unwrap();
        assert_eq!(file[8..16], [255; 8]);
        let (index, closing) = (start + 35, start + 47);
        let (stamp, ad) = (bytes(100, 16), &file[index..closing]);
        let sealed = bit_seal(edition, u64::MAX, 1, &stamp, ad, &bytes(0, 3));
        assert_eq!(file[start..index], sealed);
    }
}

/// Camera numbers use all their four bytes, and check returns them.
#[test]
fn camera_numbers() {
    for camera in [1, 30, 0x100, 0x1_0000, 0x100_0000, 0x8000_0000, u32::MAX] {
        let calls = with_camera(list_of(21, &[3, 0]), camera);
        let file = made(EDITION_2, &calls, 119).file.unwrap();
        assert_eq!(file[32..36], camera.to_le_bytes());
        assert_eq!(file[36..40], [0; 4]);
        assert_eq!(check(&KEY, &file).unwrap().camera, camera);
    }
}

/// A plain burst of edition 1 is the same whatever camera number is given, 0
/// too, and holds 0.
#[test]
fn edition_1_has_no_camera_number() {
    let expected = made(EDITION_1, &list_of(22, &[3, 0, 5]), 32 + 35 + 37 + 24 + 32);
    assert_eq!(expected.burst.camera, 0);
    for camera in [0, 1, 5, u32::MAX] {
        let calls = with_camera(list_of(22, &[3, 0, 5]), camera);
        assert_eq!(run(EDITION_1, &calls, 160), expected);
    }
}

/// Every call after a refused begin gets 8.
#[test]
fn refused_begin_refuses_the_list() {
    let mut wrong_key = list_of(20, &[3, 0]);
    if let Call::Begin { key, .. } = &mut wrong_key[0] {
        key.pop();
    }
    let no_camera = with_camera(list_of(20, &[3, 0]), 0);
    for (calls, number) in [(wrong_key, 1), (no_camera, 15)] {
        let mut recorder = Recorder::REFUSED;
        let mut buffer = buffer_of(200);
        let numbers = [number, 8, 8, 8];
        let outcome = run(EDITION_2, &calls, 200);
        assert_eq!(outcome.answers, numbers.map(Answer::refused));
        assert_eq!(outcome.file, None);
        for (call, number) in calls.iter().zip(numbers) {
            let answer = record_call(&mut recorder, call, &mut buffer);
            assert_eq!(answer, Answer::refused(number));
            assert_eq!(recorder, Recorder::REFUSED);
            assert_eq!(buffer, buffer_of(200));
        }
    }
}
