//! Slices of more than 4,294,967,296 bytes: lengths count in full, not only in
//! 32 bits. The bytes are zeros that the system hands out when they are
//! touched; only their front is.

use burst_calls::list::{bytes, file_of, shots_of, CAMERA, KEY, SITE_MARK};
use burst_calls::listing::{check_text, LIST_BYTES, TOO_LONG};
use burst_calls::reading::{CHECK_INFO, FETCH_INFO};
use burst_calls::script::script_of;
use reference::burst::lister::list;
use reference::burst::reader::RecordPart;
use reference::burst::{EDITIONS, EDITION_2};

/// 2 to the 32nd.
const FAR: usize = 1 << 32;

/// The front of the long slice that a test looks at.
const NEAR: usize = 4_096;

/// Begin and a script: the answers, as numbers and shots or totals, and whether
/// the whole script was performed.
fn replayed(
    key: &[u8],
    site_mark: &[u8],
    script: &[u8],
    buffer: &mut [u8],
    answers: &mut [u8],
) -> (Vec<(u32, u32)>, u32) {
    let (count, whole) = burst_calls::replay(key, 7, CAMERA, site_mark, script, buffer, answers);
    let four = |bytes: &[u8]| u32::from_le_bytes(bytes.try_into().unwrap());
    let answers = answers.chunks(8).take(count);
    let answers = answers.map(|answer| (four(&answer[..4]), four(&answer[4..])));
    (answers.collect(), whole)
}

/// The long slice with these bytes at its front.
fn with_front<'a>(long: &'a mut [u8], front: &[u8]) -> &'a mut [u8] {
    long[..NEAR].fill(0);
    long[..front.len()].copy_from_slice(front);
    long
}

/// One test, so that there is one long slice at a time.
#[test]
fn lengths_of_more_than_32_bits() {
    let mut long = vec![0; FAR + NEAR];
    let long = &mut long[..];
    keys_and_site_marks(long);
    buffers_and_answers(long);
    scripts(long);
    files(long);
    outputs_and_infos(long);
}

/// 2 to the 32nd + 16 bytes are not 16.
fn keys_and_site_marks(long: &mut [u8]) {
    let file = file_of(EDITION_2, 7, &[0, 3, 0]);
    let long = with_front(long, &KEY);
    let key = &long[..FAR + 16];
    let (mut buffer, mut answers, mut info) = ([5; 72], [5; 16], [5; CHECK_INFO]);
    let answered = replayed(key, &SITE_MARK, &[1], &mut buffer, &mut answers);
    assert_eq!(answered, (vec![(1, 0), (8, 0)], 1));
    assert_eq!(burst_calls::check(key, &file, &mut info), (1, 0));
    let fetched = burst_calls::fetch(key, &file, 0, &mut buffer, &mut info);
    assert_eq!(fetched, (1, 0));
    let refused = RecordPart {
        number: 1,
        mark: 0,
        offset: 0,
        length: 0,
    };
    assert_eq!(burst_calls::record(key, &file, 0), refused);
    let answered = replayed(&KEY, key, &[1], &mut buffer, &mut answers);
    assert_eq!(answered, (vec![(3, 0), (8, 0)], 1));
    assert_eq!((buffer, info), ([5; 72], [5; CHECK_INFO]));
}

/// A buffer of 2 to the 32nd + 10 bytes is long enough, and so are answers of
/// 2 to the 32nd + 8 bytes.
fn buffers_and_answers(long: &mut [u8]) {
    let script = script_of(&shots_of(&[0, 3, 0]));
    let expected = (vec![(0, 0), (0, 1), (0, 2), (0, 3), (0, 119)], 1);
    let file = file_of(EDITION_2, 7, &[0, 3, 0]);
    let mut answers = [5; 40];
    let buffer = &mut with_front(long, &[9; 200])[..FAR + 10];
    let answered = replayed(&KEY, &SITE_MARK, &script, buffer, &mut answers);
    assert_eq!(answered, expected);
    assert!(buffer[..119] == file, "the file");
    assert_eq!(buffer[119..200], [9; 81]);

    let mut buffer = [5; 119];
    let answers = &mut with_front(long, &[9; 50])[..FAR + 8];
    let answered = replayed(&KEY, &SITE_MARK, &script, &mut buffer, answers);
    assert_eq!(answered, expected);
    assert_eq!(answers[40..50], [9; 10]);
    assert!(buffer[..] == file, "the file");
}

/// The longest picture that a script can hold is too long, and the script goes
/// on after it; cut by a byte, it ends the script.
fn scripts(long: &mut [u8]) {
    let front = [&[2, 16, 255, 255, 255, 255][..], &[7; 16]].concat();
    let end = front.len() + u32::MAX as usize;
    let long = with_front(long, &front);
    long[end] = 1;
    let script = &long[..=end];
    let (mut buffer, mut answers) = ([5; 72], [5; 32]);
    let answered = replayed(&KEY, &SITE_MARK, script, &mut buffer, &mut answers);
    assert_eq!(answered, (vec![(0, 0), (10, 0), (0, 72)], 1));
    let cut = &long[..end - 1];
    let answered = replayed(&KEY, &SITE_MARK, cut, &mut buffer, &mut answers);
    assert_eq!(answered, (vec![(0, 0)], 0));
    long[end] = 0;

    // A script of zeros: as many drops as there is room for answers.
    let script = &with_front(long, &[])[..FAR + 3];
    let mut answers = [5; 8 * 65];
    let (answered, whole) = replayed(&KEY, &SITE_MARK, script, &mut buffer, &mut answers);
    assert_eq!((answered.len(), whole), (65, 0));
    assert_eq!(answered[60..], [(0, 60), (9, 0), (9, 0), (9, 0), (9, 0)]);
}

/// A file that is longer than its total by 2 to the 32nd breaks a front rule,
/// and is too long to be listed.
fn files(long: &mut [u8]) {
    for edition in EDITIONS {
        let example = file_of(edition, 7, &[0, 3, 0]);
        for extra in [0, 1] {
            let file = &with_front(long, &example)[..FAR + example.len() + extra];
            let (mut out, mut info) = ([5; 3], [5; CHECK_INFO]);
            assert_eq!(burst_calls::check(&KEY, file, &mut info), (12, 0));
            let fetched = burst_calls::fetch(&KEY, file, 0, &mut out, &mut info);
            assert_eq!(fetched, (12, 0));
            assert_eq!((out, info), ([5; 3], [5; CHECK_INFO]));
            let part = burst_calls::record(&KEY, file, 0);
            assert_eq!((part.number, part.offset, part.length), (12, 0, 0));
            check_text(file, LIST_BYTES, TOO_LONG, &|| format!("{extra} more"));
        }
    }
}

/// Output, info and text of 2 to the 32nd bytes, or one more, are long enough.
fn outputs_and_infos(long: &mut [u8]) {
    let file = file_of(EDITION_2, 7, &[0, 3, 0]);
    let picture = bytes(1, 3);
    let fetch_info = [vec![2, 0, 3, 0, 0, 0], bytes(101, 16)].concat();
    for more in [0, 1] {
        let out = &mut with_front(long, &[9; 100])[..FAR + more];
        let mut info = [5; FETCH_INFO];
        let fetched = burst_calls::fetch(&KEY, &file, 0, out, &mut info);
        assert_eq!(fetched, (0, 0));
        assert_eq!((&out[..3], &out[3..100]), (&picture[..], &[9; 97][..]));
        assert_eq!(info[..], fetch_info);

        let info = &mut with_front(long, &[9; 100])[..FAR + more];
        let mut out = [5; 4];
        let fetched = burst_calls::fetch(&KEY, &file, 0, &mut out, info);
        assert_eq!(fetched, (0, 0));
        assert_eq!((&out[..3], out[3]), (&picture[..], 5));
        assert_eq!(info[..FETCH_INFO], fetch_info);
        assert_eq!(info[FETCH_INFO..100], [9; 100 - FETCH_INFO]);

        let info = &mut with_front(long, &[9; 100])[..FAR + more];
        assert_eq!(burst_calls::check(&KEY, &file, info), (0, 0));
        assert_eq!(info[24..30], [3, 0, 1, 0, 2, 0]);
        assert_eq!(info[30..35], [0x0A, 0x0B, 0x0C, 0x0D, 9]);

        let text = &mut with_front(long, &[9; 100])[..FAR + more];
        assert_eq!(burst_calls::list_front(&file, text), (0, 55));
        assert_eq!(text[..55], *list(&file).as_bytes());
        assert_eq!(text[55..100], [9; 45]);
    }
}
