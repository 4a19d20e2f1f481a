//! The calls of strips turned down: every number by example, and every set of
//! conditions that can hold together gives the first in the scope paper's
//! order. What a refused call leaves is looked at in all of them.

use std::collections::HashSet;

use c_calls::case::Case;
use c_calls::order::{associated_data, choices, first_to_hold, lengths, BYTES, OVER, ZEROS};
use c_calls::random_strips::state_with;
use c_calls::strip_pair::StripPair;
use c_calls::strips::{Start, FINISHED_AT, STATE_BYTES};
use reference::random::SplitMix64;
use reference::sealing::{Variant, MAXIMUM};

const MOST: u64 = MAXIMUM as u64;

/// Lengths of the state that is lent: right, longer, and too short.
const STATES: [usize; 4] = [STATE_BYTES, STATE_BYTES + 31, STATE_BYTES - 1, 0];

/// A start that is right, with associated data of 3 and 6 bytes.
fn right() -> Case {
    Case::random(&mut SplitMix64::new(14), Variant::Icepole128, 3, 6, 0)
}

/// The number of a start, and the bytes that it leaves in the state.
fn start(given: &Start, out_len: usize, state_len: usize) -> (u32, Vec<u8>) {
    let what = || {
        let lengths = [given.key, given.nonce, given.secret, given.ad1, given.ad2].map(<[u8]>::len);
        format!("start of lengths {lengths:?}, out {out_len}, state {state_len}")
    };
    let (pair, answer) = StripPair::start(given, out_len, state_len, &what);
    (answer.err().unwrap_or(0), pair.lent().to_vec())
}

/// The number of a strip on a state.
fn strip(state: &[u8], msg: &[u8], out_len: usize) -> u32 {
    let what = || format!("strip of {}, out {out_len}, state {state:?}", msg.len());
    let answer = StripPair::holding(state).strip(msg, out_len, &what);
    answer.err().unwrap_or(0)
}

/// The number of an end on a state.
fn end(state: &[u8], out_len: usize) -> u32 {
    let what = || format!("end, out {out_len}, state {state:?}");
    let answer = StripPair::holding(state).end(out_len, &what);
    answer.err().unwrap_or(0)
}

/// A state with this count, not finished.
fn counting(count: u64) -> Vec<u8> {
    state_with(&mut SplitMix64::new(count), count, 0)
}

/// What a refused start leaves: zeros, and 1 for finished.
fn refused_state() -> Vec<u8> {
    let mut state = vec![0; STATE_BYTES];
    state[FINISHED_AT] = 1;
    state
}

#[test]
fn start_by_example() {
    let case = right();
    let refused = |number, change: fn(&mut Start)| {
        let mut given = case.start();
        change(&mut given);
        let left = start(&given, 16, STATE_BYTES);
        assert_eq!(left, (number, refused_state()));
    };
    refused(1, |given| given.key = &BYTES[..15]);
    refused(2, |given| given.nonce = &BYTES[..12]);
    refused(3, |given| given.secret = &[]);
    refused(4, |given| given.ad1 = &ZEROS);
    refused(4, |given| given.ad2 = &ZEROS);
    // Both parts together are one byte too many; the second part has 6.
    refused(4, |given| given.ad1 = &ZEROS[..MAXIMUM - 5]);

    let given = case.start();
    for out_len in [0, 15] {
        let left = start(&given, out_len, STATE_BYTES);
        assert_eq!(left, (5, refused_state()));
    }
    for out_len in [16, 17, 100] {
        assert_eq!(start(&given, out_len, STATE_BYTES).0, 0);
    }
}

/// A slice of any length below 169 gets 5 from all three calls: from start
/// after its own numbers, from strip and end before all else. Nothing is
/// written, which `StripPair` sees.
#[test]
fn no_room_for_the_state() {
    let case = right();
    let given = case.start();
    for state_len in 0..STATE_BYTES {
        for out_len in [16, 15, 0, 40] {
            assert_eq!(start(&given, out_len, state_len).0, 5, "{state_len}");
        }
        for (number, change) in [
            (1, (|given| given.key = &BYTES[..15]) as fn(&mut Start)),
            (2, |given| given.nonce = &BYTES[..12]),
            (3, |given| given.secret = &[]),
            (4, |given| given.ad1 = &ZEROS),
        ] {
            let mut given = case.start();
            change(&mut given);
            assert_eq!(start(&given, 16, state_len).0, number, "{state_len}");
        }
        // What the bytes would say does not matter: zeros, a count above the
        // maximum, finished.
        for bytes in [vec![0; STATE_BYTES], counting(5), vec![0xFF; STATE_BYTES]] {
            let state = &bytes[..state_len];
            for (msg, out_len) in [(&[][..], 0), (&[1], 1), (&[1], 0), (&ZEROS[..], 0)] {
                assert_eq!(strip(state, msg, out_len), 5, "{state_len}");
            }
            for out_len in [0, 15, 16, 40] {
                assert_eq!(end(state, out_len), 5, "{state_len}");
            }
        }
    }
}

/// After a start that had no room for its state, every strip and end gets 5.
#[test]
fn calls_after_a_start_without_room() {
    let case = right();
    for state_len in 0..STATE_BYTES {
        let what = || format!("state {state_len}");
        let (mut pair, answer) = StripPair::start(&case.start(), 16, state_len, &what);
        assert_eq!(answer, Err(5), "{}", what());
        for call in [[0, 1], [1, 0]].concat() {
            let answer = match call {
                0 => pair.strip(&[1, 2], 2, &what),
                _ => pair.end(16, &what),
            };
            assert_eq!(answer, Err(5), "{}", what());
        }
    }
}

/// 67,108,864 bytes of associated data are not too many.
#[test]
fn longest_associated_data() {
    let case = right();
    for first in [0, 1, MAXIMUM] {
        let (ad1, ad2) = ZEROS[..MAXIMUM].split_at(first);
        let given = Start {
            ad1,
            ad2,
            ..case.start()
        };
        assert_eq!(start(&given, 15, STATE_BYTES), (5, refused_state()));
    }
}

#[test]
fn strip_by_example() {
    // 14: after an end, a count above the maximum.
    let mut pair = StripPair::holding(&counting(5));
    let what = || "strip after end".to_string();
    assert!(pair.end(16, &what).is_ok());
    assert_eq!(pair.strip(&[1], 1, &what), Err(14));
    assert_eq!(pair.strip(&[], 0, &what), Err(14));
    for count in [
        MOST + 1,
        MOST + 2,
        1 << 32,
        (1 << 32) + 5,
        1 << 63,
        u64::MAX,
    ] {
        assert_eq!(strip(&counting(count), &[], 0), 14, "count {count}");
        assert_eq!(strip(&counting(count), &[1], 1), 14, "count {count}");
    }

    // 4: the sum.
    assert_eq!(strip(&counting(MOST), &[1], 1), 4);
    assert_eq!(strip(&counting(MOST - 1), &[1, 2], 2), 4);
    assert_eq!(strip(&counting(MOST - 1), &[1], 1), 0);
    assert_eq!(strip(&counting(MOST), &[], 0), 0);
    assert_eq!(strip(&counting(0), &ZEROS, 1), 4);
    assert_eq!(strip(&counting(1), &ZEROS[1..], 1), 4);
    assert_eq!(strip(&counting(0), &ZEROS[1..], 1), 5);

    // 5: the output, and too few bytes for a state.
    assert_eq!(strip(&counting(0), &[1, 2, 3], 2), 5);
    assert_eq!(strip(&counting(0), &[1, 2, 3], 0), 5);
    assert_eq!(strip(&counting(0), &[1, 2, 3], 3), 0);
    assert_eq!(strip(&counting(5)[..168], &[1], 1), 5);
    assert_eq!(strip(&[], &[1], 1), 5);
}

#[test]
fn end_by_example() {
    let mut pair = StripPair::holding(&counting(5));
    let what = || "end after end".to_string();
    assert_eq!(pair.end(15, &what), Err(5));
    assert!(pair.end(16, &what).is_ok());
    assert_eq!(pair.end(16, &what), Err(14));
    for count in [MOST + 1, 1 << 32, (1 << 32) + 5, u64::MAX] {
        assert_eq!(end(&counting(count), 16), 14, "count {count}");
    }
    assert_eq!(end(&counting(5)[..168], 16), 5);
    assert_eq!(end(&[], 16), 5);
    for count in [0, 1, 127, 128, 129, MOST - 1, MOST] {
        let numbers = [0, 15, 16, 17].map(|out_len| end(&counting(count), out_len));
        assert_eq!(numbers, [5, 5, 0, 0], "count {count}");
    }
}

#[test]
fn start_in_the_order_1_2_3_4_5() {
    let sixteen = lengths(16);
    let ads = associated_data();
    let outs = [16, 15, 19, 0];
    let mut subsets = HashSet::new();
    let many = sixteen.len();
    for [k, n, s, a, o, t] in choices([many, many, many, ads.len(), outs.len(), STATES.len()]) {
        let (ad1, ad2) = ads[a];
        let given = Start {
            key: &BYTES[..sixteen[k]],
            nonce: &BYTES[..sixteen[n]],
            secret: &BYTES[..sixteen[s]],
            ad1,
            ad2,
        };
        let order = [
            (1, given.key.len() != 16),
            (2, given.nonce.len() != 16),
            (3, given.secret.len() != 16),
            (4, ad1.len() + ad2.len() > MAXIMUM),
            (5, outs[o] < 16),
            (5, STATES[t] < STATE_BYTES),
        ];
        subsets.insert(order);
        let (number, _) = start(&given, outs[o], STATES[t]);
        assert_eq!(number, first_to_hold(&order), "{order:?}");
    }
    // All six are free of each other.
    assert_eq!(subsets.len(), 1 << 6);
}

/// Counts within the maximum and above it.
const COUNTS: [u64; 7] = [0, 130, MOST - 1, MOST, MOST + 1, 1 << 32, u64::MAX];

/// A state of this count and last byte, cut or filled up to the length.
fn state_of(count: u64, finished: u8, length: usize) -> Vec<u8> {
    let mut state = state_with(&mut SplitMix64::new(length as u64), count, finished);
    state.resize(length, 0xEE);
    state
}

/// Behind 5 for a slice that holds no state.
#[test]
fn strip_in_the_order_14_4_5() {
    let messages = [
        &BYTES[..1],
        &BYTES[..0],
        &BYTES[..2],
        &ZEROS[..MAXIMUM],
        &ZEROS[..OVER],
    ];
    let mut subsets = HashSet::new();
    for [c, f, t, m, o] in choices([COUNTS.len(), 4, STATES.len(), messages.len(), 4]) {
        let (count, finished, msg) = (COUNTS[c], [0, 1, 2, 255][f], messages[m]);
        // An output for a long message is always too short.
        let out_len = [msg.len(), msg.len().saturating_sub(1), msg.len() + 3, 0][o].min(60);
        let order = [
            (5, STATES[t] < STATE_BYTES),
            (14, finished != 0),
            (14, count > MOST),
            (4, u128::from(count) + msg.len() as u128 > MAXIMUM as u128),
            (5, out_len < msg.len()),
        ];
        subsets.insert(order);
        let number = strip(&state_of(count, finished, STATES[t]), msg, out_len);
        assert_eq!(number, first_to_hold(&order), "count {count}, {order:?}");
    }
    // A count above the maximum makes the sum so; the others are free.
    assert_eq!(subsets.len(), 3 << 3);
}

/// Behind 5 for a slice that holds no state.
#[test]
fn end_in_the_order_14_5() {
    let mut subsets = HashSet::new();
    for [c, f, t, o] in choices([COUNTS.len(), 4, STATES.len(), 4]) {
        let (count, finished, out_len) = (COUNTS[c], [0, 1, 2, 255][f], [16, 15, 0, 20][o]);
        let order = [
            (5, STATES[t] < STATE_BYTES),
            (14, finished != 0),
            (14, count > MOST),
            (5, out_len < 16),
        ];
        subsets.insert(order);
        let number = end(&state_of(count, finished, STATES[t]), out_len);
        assert_eq!(number, first_to_hold(&order), "count {count}, {order:?}");
    }
    assert_eq!(subsets.len(), 1 << 4);
}
