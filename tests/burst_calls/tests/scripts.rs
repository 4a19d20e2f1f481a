//! Scripts of burst_replay: what is a call, where a script ends, and how many
//! calls there is room for.

use burst_calls::list::{bytes, keep};
use burst_calls::recording::Recording;
use burst_calls::script::{script_of, CLOSE, DROP, KEEP};
use reference::burst::Call;

/// Drop, two keeps, a drop, close, and three calls after it.
fn calls() -> Vec<Call> {
    let mut calls = vec![Call::Drop, keep(1, 3), keep(2, 20), Call::Drop, Call::Close];
    calls.extend([Call::Drop, keep(3, 1), Call::Close]);
    calls
}

/// The answers to `calls` on a buffer that is long enough.
const NUMBERS: [u32; 9] = [0, 0, 0, 0, 0, 0, 8, 8, 8];
const SHOTS_AND_TOTAL: [u64; 9] = [0, 1, 2, 3, 4, 183, 0, 0, 0];

#[test]
fn answers_of_a_list() {
    let recording = Recording::new(3, script_of(&calls()), 200, 72);
    let performed = recording.check(&|| "a list".into());
    assert_eq!(performed.numbers(), NUMBERS);
    assert_eq!(performed.shots_and_totals(), SHOTS_AND_TOTAL);
    assert_eq!(performed.file().map(<[u8]>::len), Some(183));
    assert!(performed.whole);
}

/// Every length of the answers: only calls whose answers have room are
/// performed, and the rest of the slice stays.
#[test]
fn every_room_for_answers() {
    let script = script_of(&calls());
    for room in 0..100 {
        let recording = Recording::new(3, script.clone(), 200, room);
        let performed = recording.check(&|| "room for answers".into());
        let count = (room / 8).min(9);
        assert_eq!(performed.numbers(), NUMBERS[..count], "room {room}");
        // The close is the sixth answer.
        assert_eq!(performed.file().is_some(), count >= 6, "room {room}");
        // The last call is the ninth: below 72 bytes it is not performed.
        assert_eq!(performed.whole, room >= 72, "room {room}");
    }
}

/// Every cut of the script: a keep that is cut ends it, and nothing of the
/// keep is done.
#[test]
fn every_cut_of_a_script() {
    let script = script_of(&calls());
    // Where a call ends.
    let ends = [1, 26, 68, 69, 70, 71, 94, 95];
    assert_eq!(ends.last(), Some(&script.len()));
    for length in 0..=script.len() {
        let cut = script[..length].to_vec();
        let performed = Recording::new(3, cut, 200, 80).check(&|| "cut script".into());
        let count = 1 + ends.iter().filter(|end| **end <= length).count();
        assert_eq!(performed.numbers(), NUMBERS[..count], "cut to {length}");
        let whole = length == 0 || ends.contains(&length);
        assert_eq!(performed.whole, whole, "cut to {length}");
    }
}

/// Only 0, 1 and 2 are calls: any other byte ends the script where it stands,
/// whatever follows, and the script was not performed whole.
#[test]
fn every_byte_that_is_no_call() {
    let rests = [
        vec![],
        vec![CLOSE],
        vec![DROP; 9],
        script_of(&[keep(1, 3), Call::Close])[1..].to_vec(),
    ];
    for first in 3..=255 {
        for rest in &rests {
            let script = [&[DROP, first], &rest[..]].concat();
            let performed = Recording::new(3, script, 119, 32).check(&|| format!("first {first}"));
            assert_eq!(performed.shots_and_totals(), [0, 1], "{first}");
            assert!(!performed.whole, "{first}");
        }
        let performed = Recording::new(3, vec![first], 119, 32).check(&|| format!("only {first}"));
        assert_eq!((performed.numbers(), performed.whole), (vec![0], false));
    }
    // Such a byte inside a stamp or a picture is theirs.
    let picture: Vec<u8> = (0..=255).collect();
    let stamp = bytes(255, 16);
    let calls = [Call::Keep { stamp, picture }, Call::Close];
    let performed = Recording::new(3, script_of(&calls), 500, 32).check(&|| "inside".into());
    assert_eq!(performed.shots_and_totals(), [0, 1, 372]);
    assert!(performed.whole);
}

/// The names of the calls in burst.h.
#[test]
fn the_three_calls() {
    assert_eq!([DROP, CLOSE, KEEP], [0, 1, 2]);
    let mut script = vec![DROP, KEEP, 16, 3, 0, 0, 0];
    script.extend(bytes(7, 19));
    script.push(CLOSE);
    let performed = Recording::new(3, script, 119, 32).check(&|| "three calls".into());
    assert_eq!(performed.shots_and_totals(), [0, 1, 2, 119]);
    assert!(performed.whole);
}

/// A close that is dropped is not silent: without room for its answer, behind
/// a keep that says too much, behind a byte that is no call.
#[test]
fn a_close_that_is_not_performed() {
    let closed = script_of(&[Call::Drop, keep(1, 3), Call::Close]);
    for room in [24, 25, 31, 32, 33] {
        let performed = Recording::new(8, closed.clone(), 200, room).check(&|| "room".into());
        assert_eq!(performed.file().is_some(), room >= 32, "room {room}");
        assert_eq!(performed.whole, room >= 32, "room {room}");
    }
    // The picture is said to have two bytes more than there are with the close.
    let mut longer = closed.clone();
    longer[3] += 2;
    let other = [&[DROP, 3], &closed[1..]].concat();
    // The last byte of the picture, 59, stands where a call should.
    let mut shorter = closed.clone();
    shorter[3] -= 1;
    for (script, answers) in [(longer, 2), (other, 2), (shorter, 3)] {
        let performed = Recording::new(8, script, 200, 64).check(&|| "lost close".into());
        assert!(performed.file().is_none() && !performed.whole);
        assert_eq!(performed.answers.len(), answers);
    }
}

/// Whole speaks of the script: refused calls are performed, begin's among
/// them, and where begin has no room an empty script is not whole.
#[test]
fn refused_calls_are_performed() {
    let calls = [keep(1, 0), Call::Close, Call::Close, Call::Drop];
    for (key, camera, buffer) in [(16, 1, 72), (15, 1, 72), (16, 0, 72), (16, 1, 71)] {
        let mut recording = Recording::new(9, script_of(&calls), buffer, 40);
        recording.key.truncate(key);
        recording.camera = camera;
        let performed = recording.check(&|| "refused".into());
        assert!(performed.whole && performed.answers.len() == 5);
        assert!(performed.numbers()[4] == 8);
        recording.answers.pop();
        let performed = recording.check(&|| "refused, no room".into());
        assert!(!performed.whole && performed.answers.len() == 4);
    }
    for room in 0..20 {
        let performed = Recording::new(9, vec![], 72, room).check(&|| "empty".into());
        assert_eq!(performed.whole, room >= 8, "room {room}");
    }
}

/// Every length of a stamp: 16 is kept, others are turned down, and the script
/// goes on after the keep.
#[test]
fn every_stamp_length() {
    for length in 0..=255 {
        let stamp = bytes(7, length);
        let picture = bytes(8, 3);
        let calls = [Call::Keep { stamp, picture }, Call::Drop, Call::Close];
        let recording = Recording::new(4, script_of(&calls), 119, 40);
        let performed = recording.check(&|| format!("stamp {length}"));
        let expected = match length {
            16 => ([0, 0, 0, 0], [0, 1, 2, 119]),
            _ => ([0, 3, 0, 0], [0, 0, 1, 72]),
        };
        let numbers: [u32; 4] = performed.numbers().try_into().unwrap();
        assert_eq!(numbers, expected.0, "stamp {length}");
        assert_eq!(performed.shots_and_totals(), expected.1, "stamp {length}");
    }
}

/// A keep whose picture length is far beyond the script, also where a sum of
/// lengths wraps in 32 bits, is cut.
#[test]
fn keeps_that_say_too_much() {
    let lengths = [4, 256, 65_536, 1_048_576, 1 << 24, 1 << 31];
    let wrapping = (0..60).map(|less| u32::MAX - less);
    for length in lengths.into_iter().chain(wrapping) {
        let mut script = vec![0, 2, 16];
        script.extend(length.to_le_bytes());
        script.extend(bytes(1, 16));
        // The three bytes could be drops, if the keep were skipped.
        script.extend([0; 3]);
        let recording = Recording::new(5, script, 200, 64);
        let performed = recording.check(&|| format!("picture length {length}"));
        assert_eq!(performed.shots_and_totals(), [0, 1], "{length}");
    }
    let mut short = vec![0];
    for byte in [KEEP, 16, 1, 0, 0] {
        short.push(byte);
        let performed = Recording::new(5, short.clone(), 200, 64).check(&|| "no lengths".into());
        assert_eq!(performed.shots_and_totals(), [0, 1], "{short:?}");
        assert!(!performed.whole, "{short:?}");
    }
}

/// Without room for one answer nothing is done, whatever else is lent.
#[test]
fn no_room_at_all() {
    for room in 0..8 {
        for buffer in [0, 71, 72, 200] {
            let recording = Recording::new(6, script_of(&calls()), buffer, room);
            let performed = recording.check(&|| "no room".into());
            assert!(performed.calls.is_empty() && !performed.whole);
            assert_eq!(performed.buffer, recording.buffer);
        }
    }
}

/// An empty script is a begin alone: it zeros 40 bytes, and the others stay.
#[test]
fn begin_alone() {
    for buffer in [72, 73, 1000] {
        let recording = Recording::new(7, Vec::new(), buffer, 8);
        let performed = recording.check(&|| "begin alone".into());
        assert_eq!(performed.numbers(), [0]);
        assert_eq!(performed.buffer[..40], [0; 40]);
        assert_eq!(performed.buffer[40..], recording.buffer[40..]);
    }
}
