//! The bytes of a strip state: how they go from call to call, and states that
//! anybody makes.

use std::collections::BTreeSet;

use c_calls::case::Case;
use c_calls::random_strips::{calls_on_state, random_state, state_with};
use c_calls::strips::{bytes_of, end, start, state_in, strip};
use c_calls::strips::{CIPHER_BYTES, FINISHED_AT, STATE_BYTES};
use reference::random::SplitMix64;
use reference::sealing::{Variant, MAXIMUM};

/// The count and the last byte.
fn count_and_finished(state: &[u8]) -> (u64, u8) {
    let count = state[CIPHER_BYTES..FINISHED_AT].try_into().unwrap();
    (u64::from_le_bytes(count), state[FINISHED_AT])
}

/// One message of 300 bytes, its state looked at by hand after each call.
#[test]
fn from_call_to_call() {
    let mut generator = SplitMix64::new(0x169);
    let case = Case::random(&mut generator, Variant::Icepole128, 12, 0, 300);
    let mut state = [0xFF; STATE_BYTES];
    let mut sealed = [0; 332];
    assert_eq!(start(&case.start(), &mut sealed, &mut state), 0);
    assert_eq!(count_and_finished(&state), (0, 0));

    let before = state;
    assert_eq!(strip(&mut state, &[], &mut []), 0);
    assert_eq!(state, before);

    assert_eq!(strip(&mut state, &case.msg[..5], &mut sealed[16..]), 0);
    assert_eq!(count_and_finished(&state), (5, 0));
    // Ciphertext is state xor message: the block under way is in the state.
    assert_eq!(state[..5], sealed[16..21]);
    assert_eq!(state[5..CIPHER_BYTES], before[5..CIPHER_BYTES]);

    assert_eq!(strip(&mut state, &case.msg[5..], &mut sealed[21..]), 0);
    assert_eq!(count_and_finished(&state), (300, 0));
    assert_eq!(state[..44], sealed[272..316]);

    let before = state;
    assert_eq!(end(&mut state, &mut sealed[316..]), 0);
    assert_eq!(state[..FINISHED_AT], before[..FINISHED_AT]);
    assert_eq!(state[FINISHED_AT], 1);
    assert_eq!(case.reference_seal(332).unwrap(), sealed);
}

/// Every state within the limit that is not finished takes a strip, and the
/// calls on it are as the reference has them.
#[test]
fn made_by_anybody_and_good() {
    let mut generator = SplitMix64::new(0x170);
    for number in 0..10_000 {
        let count = match generator.below(4) {
            0 => 127 + generator.below(3) as u64,
            1 => generator.below(600) as u64,
            _ => generator.below(MAXIMUM + 1) as u64,
        };
        let state = state_with(&mut generator, count, 0);
        let what = || format!("state {number}, count {count}");
        assert_eq!(strip(&mut state.clone(), &[], &mut []), 0, "{}", what());
        calls_on_state(&mut generator, &state, &what);
    }
}

/// Counts at the edges of blocks, and for each of them strips that end there.
#[test]
fn made_by_anybody_at_block_edges() {
    let mut generator = SplitMix64::new(0x171);
    let edges = [0, 1, 127, 128, 129, 255, 256, 257];
    let near = (MAXIMUM - 512) as u64;
    for count in edges.into_iter().chain(edges.map(|edge| near + edge)) {
        for _ in 0..200 {
            let state = state_with(&mut generator, count, 0);
            calls_on_state(&mut generator, &state, &|| format!("count {count}"));
        }
    }
}

#[test]
fn made_by_anybody_good_or_bad() {
    let mut generator = SplitMix64::new(0x172);
    let mut seen = BTreeSet::new();
    for number in 0..10_000 {
        let state = random_state(&mut generator);
        seen.extend(calls_on_state(&mut generator, &state, &|| {
            format!("state {number}")
        }));
    }
    let ends = [0, 5, 14].map(|number| ("end", number));
    let strips = [0, 4, 5, 14].map(|number| ("strip", number));
    assert!(seen.into_iter().eq(ends.into_iter().chain(strips)));
}

/// Any last byte but 0 is finished; every call is refused and leaves all bytes.
#[test]
fn every_byte_that_says_finished() {
    let mut generator = SplitMix64::new(0x173);
    for finished in 1..=255 {
        let count = generator.below(MAXIMUM + 1) as u64;
        let made = state_with(&mut generator, count, finished);
        let (mut state, mut out) = (made.clone(), [7; 40]);
        assert_eq!(strip(&mut state, &[], &mut out), 14, "{finished}");
        assert_eq!(strip(&mut state, &[1; 20], &mut out), 14, "{finished}");
        assert_eq!(end(&mut state, &mut out), 14, "{finished}");
        assert_eq!((state, out), (made, [7; 40]), "{finished}");
    }
}

/// The layout of a state, here and there again.
#[test]
fn bytes_and_fields() {
    let mut generator = SplitMix64::new(0x174);
    for finished in [0, 1] {
        let bytes = state_with(&mut generator, 0x0807_0605_0403_0201, finished);
        assert_eq!(bytes[CIPHER_BYTES..FINISHED_AT], [1, 2, 3, 4, 5, 6, 7, 8]);
        assert_eq!(bytes_of(&state_in(&bytes).unwrap()), bytes);
    }
    assert!(state_in(&[0; STATE_BYTES - 1]).is_none());
}
