//! The recorder alone, which writes edition 2: soundness in full on every call,
//! the order of the refusals, and what stays as it was ("Recorder", "Turned
//! down, by example", request N1). And the same orders in the plain burst.

mod help;

use help::{buffer_of, bytes, record_call, CAMERA, KEY, SITE_MARK, STARTS};
use reference::burst::plain::{Call, PlainBurst};
use reference::burst::{Answer, Entry, Recorder, EDITION_1, EDITION_2};

fn entry(shot: u16, offset: u32, length: u32) -> Entry {
    Entry {
        shot,
        zero: 0,
        offset,
        length,
    }
}

/// Made by hand: shots 2, 3 and 5 of 6 are kept, with 10, 1 and 4 bytes. The
/// entries from place 3 on are not looked at.
fn by_hand() -> Recorder {
    let mut entries = [entry(9, 9, 0); 60];
    entries[3].zero = 9;
    entries[0] = entry(2, 40, 10);
    entries[1] = entry(3, 82, 1);
    entries[2] = entry(5, 115, 4);
    Recorder {
        key: KEY,
        burst_number: 50,
        camera: CAMERA,
        site_mark: SITE_MARK,
        taken: 6,
        kept: 3,
        used: 151,
        entries,
        closed: false,
    }
}

fn changed(change: impl Fn(&mut Recorder)) -> Recorder {
    let mut recorder = by_hand();
    change(&mut recorder);
    recorder
}

/// A call on a copy; refused, it leaves recorder and buffer as they were.
fn number_of(recorder: &Recorder, call: &Call, buffer_len: usize) -> u32 {
    let mut after = recorder.clone();
    let mut buffer = buffer_of(buffer_len);
    let answer = record_call(&mut after, call, &mut buffer);
    if answer.number != 0 {
        assert_eq!(answer, Answer::refused(answer.number));
        assert_eq!(after, *recorder);
        assert_eq!(buffer, buffer_of(buffer_len));
    }
    answer.number
}

/// Keep, drop and close refuse it with 8, whatever else is wrong.
fn assert_8(recorder: &Recorder, what: &str) {
    assert!(!recorder.is_sound(), "{what}");
    let wrong = Call::Keep {
        stamp: vec![],
        picture: vec![],
    };
    for call in [help::keep(1, 3), wrong, Call::Drop, Call::Close] {
        assert_eq!(number_of(recorder, &call, 1000), 8, "{what}: {call:?}");
        assert_eq!(number_of(recorder, &call, 0), 8, "{what}: {call:?}");
    }
}

#[test]
fn sound_recorder_made_by_hand() {
    let recorder = by_hand();
    assert!(recorder.is_sound());
    for call in [help::keep(1, 3), Call::Drop, Call::Close] {
        assert_eq!(number_of(&recorder, &call, 1000), 0, "{call:?}");
    }
    // Nothing kept, something taken.
    let none = changed(|r| (r.kept, r.used) = (0, 40));
    assert!(none.is_sound());
    assert_eq!(number_of(&none, &help::keep(1, 3), 119), 0);
}

/// Soundness does not ask for a camera number: the calls seal with 0, which is
/// the nonce of edition 1. The reader refuses that file.
#[test]
fn camera_number_0_is_sound() {
    let mut recorder = changed(|r| (r.camera, r.kept, r.used) = (0, 0, 40));
    let mut buffer = buffer_of(119);
    assert!(recorder.is_sound());
    assert_eq!(recorder.drop_shot(), Answer::accepted(7));
    let kept = recorder.keep(&[1; 16], b"abc", &mut buffer);
    assert_eq!(kept, Answer::accepted(8));
    let entry = [8, 0, 0, 0, 40, 0, 0, 0, 3, 0, 0, 0];
    let record = help::bit_seal(EDITION_1, 50, 8, &[1; 16], &entry, b"abc");
    assert_eq!(buffer[40..75], record);
    assert_eq!(recorder.close(&mut buffer), Answer::accepted(119));
    assert_eq!(buffer[32..40], [0; 8]);
    let ad = [&buffer[..40], &entry].concat();
    let closing = help::bit_seal(EDITION_1, 50, 0, &SITE_MARK, &ad, &[]);
    assert_eq!(buffer[87..], closing);
    assert_eq!(help::check_number(&KEY, &buffer), (12, 0));
}

#[test]
fn counts_that_are_not_sound() {
    assert_8(&changed(|r| r.closed = true), "closed");
    for taken in [61, 62, 256 + 6, 65_536 + 6, (1 << 32) + 6, u64::MAX] {
        assert_8(&changed(|r| r.taken = taken), "taken");
    }
    // Shot numbers cannot rise within 1 to taken when kept is above taken, so
    // no recorder breaks this rule alone.
    let kept = changed(|r| {
        for place in 0..3 {
            r.entries[place].shot = place as u16 + 1;
        }
        r.taken = 2;
    });
    assert_8(&kept, "kept above taken");
    for kept in [2, 4, 7, 60, 61, 256 + 3, (1 << 32) + 3, u64::MAX] {
        assert_8(&changed(|r| r.kept = kept), "kept");
    }
    assert_8(&changed(|r| r.kept = 0), "nothing kept, used not 40");
    for used in [0, 32, 39, 41, 72, (1 << 32) + 40] {
        let none = changed(|r| (r.kept, r.used) = (0, used));
        assert_8(&none, "nothing kept, used not 40");
    }
    for used in [0, 40, 115, 143, 150, 152, (1 << 32) + 151, u64::MAX] {
        assert_8(&changed(|r| r.used = used), "used");
    }
    assert_8(&changed(|r| (r.taken, r.kept) = (60, 61)), "61 kept");
}

#[test]
fn shot_numbers_that_are_not_sound() {
    for shots in [
        [0, 3, 5],
        [2, 2, 5],
        [2, 5, 5],
        [3, 2, 5],
        [2, 5, 3],
        [2, 3, 7],
        [2, 3, 0x0105],
        [2, 3, 0],
        [0, 0, 0],
    ] {
        let wrong = changed(|r| {
            for place in 0..3 {
                r.entries[place].shot = shots[place];
            }
        });
        assert_8(&wrong, &format!("shots {shots:?}"));
    }
    assert_8(&changed(|r| r.taken = 4), "the last shot above taken");
}

#[test]
fn entries_that_are_not_sound() {
    for place in 0..3 {
        for zero in [1, 0x0100, 0xFFFF] {
            assert_8(&changed(|r| r.entries[place].zero = zero), "zero");
        }
        for more in [1, 256, 65_536, u32::MAX] {
            let offset = changed(|r| {
                r.entries[place].offset = r.entries[place].offset.wrapping_add(more);
            });
            assert_8(&offset, "offset");
            let length = changed(|r| {
                r.entries[place].length = r.entries[place].length.wrapping_add(more);
            });
            assert_8(&length, "length");
        }
    }
    // All records elsewhere, used too: they do not start at 40. From 32 they
    // stand as edition 1 has them.
    for start in [32, 39, 41] {
        let moved = changed(|r| {
            for place in 0..3 {
                r.entries[place].offset = r.entries[place].offset - 40 + start;
            }
            r.used = r.used - 40 + u64::from(start);
        });
        assert_8(&moved, "start");
    }
    // A byte between two records.
    let gap = changed(|r| {
        r.entries[2].offset += 1;
        r.used += 1;
    });
    assert_8(&gap, "gap");
    let overlap = changed(|r| {
        r.entries[2].offset -= 1;
        r.used -= 1;
    });
    assert_8(&overlap, "overlap");
}

/// Lengths out of range, all else fitting; also around 32 bits.
#[test]
fn lengths_that_are_not_sound() {
    for place in 0..3 {
        for length in [0, 1_048_577] {
            let wrong = changed(|r| {
                r.entries[place].length = length;
                for next in place + 1..3 {
                    r.entries[next].offset = r.entries[next - 1].end() as u32;
                }
                r.used = r.entries[2].end();
            });
            assert_8(&wrong, "length");
        }
    }
    let wrapping = changed(|r| {
        r.entries[2].length = u32::MAX - 114;
        r.used = 115 + u64::from(u32::MAX - 114) + 32;
    });
    assert_8(&wrapping, "the end in 64 bits");
    assert_8(
        &changed(|r| (r.entries[2].length, r.used) = (u32::MAX - 114, 32)),
        "the end in 32 bits",
    );
}

/// A begin with some of its arguments wrong.
fn begin_of(key: usize, site_mark: usize, camera: u32) -> Call {
    Call::Begin {
        key: bytes(1, key),
        burst_number: 5,
        camera,
        site_mark: bytes(2, site_mark),
    }
}

/// The number of a begin whose arguments are of these lengths, by recorder and
/// by plain burst of edition 2. Refused, it leaves the buffer.
fn number_of_begin(key: usize, site_mark: usize, camera: u32, buffer_len: usize) -> u32 {
    let call = begin_of(key, site_mark, camera);
    let number = number_of(&Recorder::REFUSED, &call, buffer_len);
    let plain = PlainBurst::at_first(EDITION_2).answer(&call, buffer_len);
    assert_eq!(plain.number, number, "{call:?}");
    number
}

#[test]
fn each_refusal_of_begin() {
    assert_eq!(number_of_begin(16, 16, 1, 72), 0);
    for wrong in [0, 15, 17, 32] {
        assert_eq!(number_of_begin(wrong, 16, 1, 72), 1);
        assert_eq!(number_of_begin(16, wrong, 1, 72), 3);
    }
    assert_eq!(number_of_begin(16, 16, 0, 72), 15);
    for camera in [2, 0x100, 0x1_0000, 0x100_0000, u32::MAX] {
        assert_eq!(number_of_begin(16, 16, camera, 72), 0);
    }
    for short in [0, 32, 40, 63, 64, 71] {
        assert_eq!(number_of_begin(16, 16, 1, short), 11);
    }
}

/// Of all that is wrong, the first in the order 1, 3, 15, 11 is answered. In a
/// plain burst of edition 1 the order is 1, 3, 11, whatever the camera number.
#[test]
fn order_of_begin() {
    for case in 0..16 {
        let wrong = |bit: u32| case & 1 << bit != 0;
        let key = 16 - usize::from(wrong(0));
        let site_mark = 16 - usize::from(wrong(1));
        let camera = u32::from(!wrong(2));
        let first = |order: &[(u32, u32)]| {
            let mut held = order.iter().filter(|(_, bit)| wrong(*bit));
            held.next().map_or(0, |(number, _)| *number)
        };
        let buffer_len = 72 - usize::from(wrong(3));
        assert_eq!(
            number_of_begin(key, site_mark, camera, buffer_len),
            first(&[(1, 0), (3, 1), (15, 2), (11, 3)]),
            "case {case}"
        );
        let old = PlainBurst::at_first(EDITION_1)
            .answer(&begin_of(key, site_mark, camera), buffer_len - 8);
        assert_eq!(old.number, first(&[(1, 0), (3, 1), (11, 3)]), "case {case}");
    }
}

/// The recorder of a full burst.
fn full() -> Recorder {
    changed(|r| r.taken = 60)
}

#[test]
fn order_of_keep() {
    let number = |recorder: &Recorder, stamp: usize, picture: usize, buffer_len: usize| {
        let call = Call::Keep {
            stamp: bytes(1, stamp),
            picture: bytes(2, picture),
        };
        number_of(recorder, &call, buffer_len)
    };
    let closed = changed(|r| (r.closed, r.taken) = (true, 60));
    assert_eq!(number(&closed, 15, 0, 0), 8);
    for stamp in [0, 15, 17, 32] {
        assert_eq!(number(&full(), stamp, 0, 0), 3);
        assert_eq!(number(&by_hand(), stamp, 3, 1000), 3);
    }
    assert_eq!(number(&full(), 16, 0, 0), 9);
    assert_eq!(number(&full(), 16, 3, 1000), 9);
    assert_eq!(number(&by_hand(), 16, 0, 0), 10);
    assert_eq!(number(&by_hand(), 16, 1_048_577, 0), 10);
    assert_eq!(number(&by_hand(), 16, 1_048_577, 2_000_000), 10);
    // Used 151, length 3 + 32, four entries, the closing seal.
    let need = 151 + 35 + 48 + 32;
    assert_eq!(number(&by_hand(), 16, 3, need - 1), 11);
    assert_eq!(number(&by_hand(), 16, 3, 0), 11);
    assert_eq!(number(&by_hand(), 16, 3, need), 0);
}

#[test]
fn order_of_drop_and_close() {
    assert_eq!(number_of(&full(), &Call::Drop, 0), 9);
    assert_eq!(number_of(&changed(|r| r.taken = 59), &Call::Drop, 0), 0);
    let closed = changed(|r| (r.closed, r.taken) = (true, 60));
    assert_eq!(number_of(&closed, &Call::Drop, 0), 8);
    assert_eq!(number_of(&closed, &Call::Close, 0), 8);
    // Used 151, three entries, the closing seal.
    let need = 151 + 36 + 32;
    assert_eq!(number_of(&by_hand(), &Call::Close, need - 1), 11);
    assert_eq!(number_of(&by_hand(), &Call::Close, 0), 11);
    assert_eq!(number_of(&by_hand(), &Call::Close, need), 0);
    assert_eq!(number_of(&full(), &Call::Close, need), 0);
}

/// The same orders in the plain burst, where closed stands for not sound.
#[test]
fn orders_of_the_plain_burst() {
    let keep = |stamp: usize, picture: usize| Call::Keep {
        stamp: bytes(3, stamp),
        picture: bytes(4, picture),
    };
    let number = |plain: &PlainBurst, call: Call, buffer_len: usize| {
        plain.clone().answer(&call, buffer_len).number
    };
    for (edition, start) in STARTS {
        let closed = PlainBurst::at_first(edition);
        assert_eq!(number(&closed, begin_of(16, 16, 1), start + 31), 11);
        assert_eq!(number(&closed, begin_of(16, 16, 1), start + 32), 0);
        assert_eq!(number(&closed, keep(15, 0), 0), 8);
        assert_eq!(number(&closed, Call::Drop, 0), 8);
        assert_eq!(number(&closed, Call::Close, 0), 8);

        let open = PlainBurst {
            closed: false,
            ..closed
        };
        let full = PlainBurst {
            shots: vec![None; 60],
            ..open.clone()
        };
        assert_eq!(number(&full, keep(15, 0), 0), 3);
        assert_eq!(number(&full, keep(16, 0), 0), 9);
        assert_eq!(number(&full, Call::Drop, 0), 9);
        assert_eq!(number(&open, keep(16, 0), 0), 10);
        assert_eq!(number(&open, keep(16, 1_048_577), 0), 10);
        assert_eq!(number(&open, keep(16, 3), start + 78), 11);
        assert_eq!(number(&open, keep(16, 3), start + 79), 0);
        assert_eq!(number(&open, Call::Close, start + 31), 11);
        assert_eq!(number(&open, Call::Close, start + 32), 0);
    }
}

/// Begin changes the first 40 bytes and nothing else.
#[test]
fn begin_zeros_the_header() {
    let mut buffer = buffer_of(100);
    let (recorder, answer) = Recorder::begin(&KEY, 5, CAMERA, &SITE_MARK, &mut buffer);
    assert_eq!(answer, Answer::accepted(0));
    let expected = Recorder {
        key: KEY,
        burst_number: 5,
        camera: CAMERA,
        site_mark: SITE_MARK,
        taken: 0,
        kept: 0,
        used: 40,
        entries: [entry(0, 0, 0); 60],
        closed: false,
    };
    assert_eq!(recorder, expected);
    assert_eq!(buffer[..40], [0; 40]);
    assert_eq!(buffer[40..], buffer_of(100)[40..]);
}

/// Keep changes its record and the entry at place kept; later entries stay.
#[test]
fn keep_changes_one_record_and_one_entry() {
    let mut recorder = by_hand();
    let mut buffer = buffer_of(400);
    let answer = recorder.keep(&[1; 16], b"abc", &mut buffer);
    assert_eq!(answer, Answer::accepted(7));
    let expected = changed(|r| {
        r.entries[3] = entry(7, 151, 3);
        (r.taken, r.kept, r.used) = (7, 4, 186);
    });
    assert_eq!(recorder, expected);
    assert_eq!(buffer[..151], buffer_of(400)[..151]);
    assert_ne!(buffer[151..186], buffer_of(400)[151..186]);
    assert_eq!(buffer[186..], buffer_of(400)[186..]);
}

#[test]
fn drop_changes_taken_alone() {
    let mut recorder = by_hand();
    assert_eq!(recorder.drop_shot(), Answer::accepted(7));
    assert_eq!(recorder, changed(|r| r.taken = 7));
}

/// Close writes header, index and closing seal; the records stay, even those
/// that no seal was made for, and so do the bytes after the total.
#[test]
fn close_changes_the_front_and_the_end() {
    let mut recorder = by_hand();
    let mut buffer = buffer_of(400);
    assert_eq!(recorder.close(&mut buffer), Answer::accepted(219));
    assert_eq!(recorder, changed(|r| r.closed = true));
    assert_eq!(buffer[..8], [2, 0, 6, 0, 3, 0, 3, 0]);
    assert_eq!(buffer[32..40], [0x0A, 0x0B, 0x0C, 0x0D, 0, 0, 0, 0]);
    assert_eq!(buffer[40..151], buffer_of(400)[40..151]);
    let entries = &recorder.entries[..3];
    let index: Vec<u8> = entries.iter().flat_map(Entry::to_bytes).collect();
    assert_eq!(buffer[151..187], index);
    assert_eq!(buffer[219..], buffer_of(400)[219..]);
    // The closing seal is right; the first record, of shot 2, is not.
    assert_eq!(help::check_number(&KEY, &buffer[..219]), (7, 2));
}
