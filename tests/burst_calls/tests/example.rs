//! The example file of the scope paper, in both editions, and the paper's
//! examples of calls turned down.

use burst_calls::lent::Lent;
use burst_calls::list::{burst_of, bytes, file_of, keep, shots_of, KEY, SITE_MARK};
use burst_calls::listing::check_rooms;
use burst_calls::reading::{check_gives_back, check_refused, FETCH_INFO};
use burst_calls::recording::Recording;
use burst_calls::script::script_of;
use reference::burst::reader::RecordPart;
use reference::burst::{Call, Edition, EDITIONS, EDITION_1, EDITION_2};
use reference::sealing::{bits, Variant};

/// The example's header, and its camera number as nonce and info have it.
fn header(edition: Edition) -> (Vec<u8>, [u8; 4]) {
    let (digits, camera) = match edition.number {
        1 => (
            "0100 0300 0100 0200 0700000000000000 20000000 43000000 4F000000 6F000000",
            [0; 4],
        ),
        _ => (
            "0200 0300 0100 0200 0700000000000000 28000000 4B000000 57000000 77000000 \
             0A0B0C0D 00000000",
            [0x0A, 0x0B, 0x0C, 0x0D],
        ),
    };
    let digits: Vec<char> = digits.chars().filter(|c| *c != ' ').collect();
    let pairs = digits.chunks(2).map(String::from_iter);
    let byte = |pair: String| u8::from_str_radix(&pair, 16).unwrap();
    (pairs.map(byte).collect(), camera)
}

/// Burst 7: drop, keep of 3 bytes, drop. Every seal is by the bit-level sealing
/// of the reference. The index is at 67 and the closing seal at 79, or in
/// edition 2 at 75 and 87.
fn example(edition: Edition) -> Vec<u8> {
    let (header, camera) = header(edition);
    let entry = [2, 0, 0, 0, header.len() as u8, 0, 0, 0, 3, 0, 0, 0];
    let mut nonce = [0; 16];
    (nonce[0], nonce[8]) = (7, 2);
    nonce[10..14].copy_from_slice(&camera);
    let (stamp, picture) = (bytes(101, 16), bytes(1, 3));
    let record = bits::seal(Variant::Icepole128, &KEY, &nonce, &stamp, &entry, &picture);
    nonce[8] = 0;
    let ad = [&header[..], &entry].concat();
    let closing = bits::seal(Variant::Icepole128, &KEY, &nonce, &SITE_MARK, &ad, &[]);
    [&header[..], &record, &entry, &closing].concat()
}

/// What burst_replay makes of the calls.
fn recorded() -> Vec<u8> {
    let script = script_of(&shots_of(&[0, 3, 0]));
    let performed = Recording::new(7, script, 119, 40).check(&|| "example".into());
    assert_eq!(performed.numbers(), [0; 5]);
    assert_eq!(performed.shots_and_totals(), [0, 1, 2, 3, 119]);
    performed.buffer
}

#[test]
fn header_of_the_example() {
    assert_eq!(recorded()[..40], header(EDITION_2).0);
    assert_eq!(file_of(EDITION_1, 7, &[0, 3, 0])[..32], header(EDITION_1).0);
}

#[test]
fn parts_of_the_example() {
    assert_eq!(EDITIONS.map(|edition| example(edition).len()), [111, 119]);
    assert_eq!(recorded(), example(EDITION_2));
    for edition in EDITIONS {
        let burst = burst_of(edition, 7, &[0, 3, 0]);
        check_gives_back(&burst, &example(edition), &|| format!("{edition:?}"));
    }
}

#[test]
fn lines_of_the_example() {
    for (edition, offset) in [(EDITION_1, 32), (EDITION_2, 40)] {
        let lines = format!("burst 7\ntaken 3 kept 1 dropped 2\nshot 2 at {offset} length 3\n");
        check_rooms(&example(edition), &lines, &|| format!("{edition:?}"));
    }
}

/// What check, fetch and record give for the example, written out. Every length
/// of check's info: from 34 bytes on it is written, and bytes after it stay.
#[test]
fn example_read_back() {
    for edition in EDITIONS {
        let file = example(edition);
        let burst_number = [7, 0, 0, 0, 0, 0, 0, 0];
        let camera = header(edition).1;
        let written = [&burst_number[..], &SITE_MARK, &[3, 0, 1, 0, 2, 0], &camera].concat();
        for length in 0..=40 {
            let what = || format!("info {length}, {edition:?}");
            let mut info = Lent::of(length);
            let checked = burst_calls::check(&KEY, &file, info.slice());
            if length < 34 {
                assert_eq!(checked, (5, 0), "{}", what());
                info.check_untouched(&what);
            } else {
                assert_eq!(checked, (0, 0), "{}", what());
                info.check_written(&written, &what);
            }
        }

        let (mut out, mut info) = (Lent::of(3), Lent::of(FETCH_INFO));
        let fetched = burst_calls::fetch(&KEY, &file, 0, out.slice(), info.slice());
        assert_eq!(fetched, (0, 0));
        out.check_written(&bytes(1, 3), &|| "fetch".into());
        let written = [vec![2, 0, 3, 0, 0, 0], bytes(101, 16)].concat();
        info.check_written(&written, &|| "fetch".into());

        let part = RecordPart {
            number: 0,
            mark: 0,
            offset: header(edition).0.len(),
            length: 35,
        };
        assert_eq!(burst_calls::record(&KEY, &file, 0), part);
    }
}

/// The numbers of a list of calls on a buffer of 200 bytes.
fn numbers(calls: &[Call]) -> Vec<u32> {
    let room = 8 * (calls.len() + 1);
    let recording = Recording::new(1, script_of(calls), 200, room);
    recording.check(&|| "an example".into()).numbers()
}

#[test]
fn number_1_key_of_15_bytes() {
    let mut recording = Recording::new(1, vec![1], 72, 16);
    recording.key.pop();
    let performed = recording.check(&|| "key of 15 bytes".into());
    assert_eq!(performed.numbers(), [1, 8]);
    let file = file_of(EDITION_2, 1, &[3]);
    let refused = check_refused(&KEY[..15], &file, &|| "key of 15 bytes".into());
    assert_eq!(refused, (1, 0));
}

#[test]
fn number_3_empty_stamp() {
    let empty = Call::Keep {
        stamp: vec![],
        picture: vec![1; 3],
    };
    assert_eq!(numbers(&[empty, keep(1, 3)]), [0, 3, 0]);
}

#[test]
fn number_5_output_one_byte_short() {
    let file = file_of(EDITION_2, 1, &[3]);
    let (mut out, mut info) = (Lent::of(2), Lent::of(FETCH_INFO));
    let refused = burst_calls::fetch(&KEY, &file, 0, out.slice(), info.slice());
    assert_eq!(refused, (5, 0));
    out.check_untouched(&|| "out".into());
    info.check_untouched(&|| "info".into());
}

#[test]
fn number_7_one_tag_bit_changed() {
    for edition in EDITIONS {
        // Behind the header, records of shots 2 and 3 end at 35 and 71, the
        // closing seal at 127.
        let file = file_of(edition, 1, &[0, 3, 4]);
        assert_eq!(file.len(), edition.header_bytes + 127);
        for (end, mark) in [(35, 2), (71, 3), (127, 0)] {
            for bit in 0..128 {
                let mut changed = file.clone();
                changed[edition.header_bytes + end - 16 + bit / 8] ^= 1 << (bit % 8);
                let what = || format!("tag bit {bit}, {edition:?}");
                let refused = check_refused(&KEY, &changed, &what);
                assert_eq!(refused, (7, mark), "{}", what());
            }
        }
    }
}

#[test]
fn number_8_drop_after_close() {
    let calls = [Call::Drop, Call::Close, Call::Drop, Call::Close, keep(1, 3)];
    assert_eq!(numbers(&calls), [0, 0, 0, 8, 8, 8]);
}

#[test]
fn number_9_61st_shot() {
    let calls = vec![Call::Drop; 61];
    let numbers = numbers(&calls);
    assert_eq!((numbers[60], numbers[61]), (0, 9));
}

#[test]
fn number_10_picture_of_0_bytes() {
    assert_eq!(numbers(&[keep(1, 0), keep(1, 1)]), [0, 10, 0]);
}

#[test]
fn number_11_begin_on_71_bytes() {
    let begun = |length| {
        let recording = Recording::new(1, vec![], length, 8);
        recording.check(&|| "begin".into()).numbers()
    };
    assert_eq!(begun(71), [11]);
    assert_eq!(begun(72), [0]);
}

#[test]
fn number_12_kept_61() {
    for edition in EDITIONS {
        let mut file = file_of(edition, 1, &[1; 60]);
        file[4] = 61;
        let refused = check_refused(&KEY, &file, &|| "kept 61".into());
        assert_eq!(refused, (12, 0));
    }
}

#[test]
fn number_13_place_0_all_dropped() {
    let burst = burst_of(EDITION_2, 1, &[0, 0, 0]);
    assert_eq!(burst.kept(), 0);
    let file = burst.file();
    let (mut out, mut info) = (Lent::of(10), Lent::of(FETCH_INFO));
    let refused = burst_calls::fetch(&KEY, &file, 0, out.slice(), info.slice());
    assert_eq!(refused, (13, 0));
    out.check_untouched(&|| "out".into());
    info.check_untouched(&|| "info".into());
    let part = RecordPart {
        number: 13,
        mark: 0,
        offset: 0,
        length: 0,
    };
    assert_eq!(burst_calls::record(&KEY, &file, 0), part);
}

#[test]
fn number_15_camera_number_0() {
    let mut recording = Recording::new(1, vec![1], 72, 16);
    recording.camera = 0;
    let performed = recording.check(&|| "camera number 0".into());
    assert_eq!(performed.numbers(), [15, 8]);
}
