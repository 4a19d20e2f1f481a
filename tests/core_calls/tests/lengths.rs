//! Logs of every length: 19 for all but those of 1 + r states, r from 1 to 12.

use core_calls::{check_both, judge};
use reference::permutation::STARTING_WORDS;
use reference::random::SplitMix64;
use reference::round_log::{log_with, Verdict, STATE_BYTES};

/// The longest length that is tried byte by byte: one state more than the
/// longest log.
const LONGEST: usize = 2_240;

/// 14 states, the last with a constant that is there.
fn long_log() -> Vec<u8> {
    log_with(STARTING_WORDS, (0..12).chain([11]))
}

/// How many rounds a log of so many bytes has, if it is not refused.
fn rounds_of(length: usize) -> Option<usize> {
    (1..=12).find(|r| STATE_BYTES * (1 + r) == length)
}

/// The front of a right log.
#[test]
fn fronts_of_a_log() {
    let log = long_log();
    assert_eq!(log.len(), LONGEST);
    let mut agreeing = Vec::new();
    for length in 0..=LONGEST {
        let expected = rounds_of(length).map_or(Verdict::Refused, Verdict::Agrees);
        check_both(&log[..length], expected, &|| "a front".into());
        // The same where the rest of the log stands behind it.
        let number = judge(&log[..length]).0;
        assert_eq!(number == 19, expected == Verdict::Refused, "{length} bytes");
        agreeing.extend((number == 0).then_some(length));
    }
    let right = [
        320, 480, 640, 800, 960, 1_120, 1_280, 1_440, 1_600, 1_760, 1_920, 2_080,
    ];
    assert_eq!(agreeing, right);
}

#[test]
fn random_bytes() {
    let mut generator = SplitMix64::new(0x1E46);
    for length in 0..=LONGEST {
        let log = generator.next_bytes(length);
        let expected = rounds_of(length).map_or(Verdict::Refused, |_| Verdict::Differs(0));
        check_both(&log, expected, &|| "random bytes".into());
    }
}

#[test]
fn zeros_and_ones() {
    for byte in [0x00, 0xFF] {
        for length in 0..=LONGEST {
            let log = vec![byte; length];
            let expected = rounds_of(length).map_or(Verdict::Refused, |_| Verdict::Differs(0));
            check_both(&log, expected, &|| format!("bytes {byte}"));
        }
    }
}

/// Lengths that are right in 8, 16 or 32 bits only, be it in bytes or in states,
/// and others. A right log stands at the front, and zeros after it, which the
/// system hands out when they are touched.
#[test]
fn long_lengths() {
    let front = long_log();
    let mut long = vec![0; (1 << 32) + LONGEST];
    long[..LONGEST].copy_from_slice(&front);
    let refused = |length: usize| {
        assert_eq!(judge(&long[..length]), (19, 0, 0), "{length} bytes");
    };
    for r in 1..=12 {
        let right = STATE_BYTES * (1 + r);
        for far in [1 << 12, 1 << 16, 1 << 24, 1 << 31, 1 << 32] {
            refused(far + right);
        }
        for states in [16, 256, 65_536, 1 << 24] {
            refused(STATE_BYTES * states + right);
        }
    }
    for k in 0..=24 {
        refused(2_080 + (STATE_BYTES << k));
        refused(2_080 + (1 << k));
    }
    for length in [10_240, (1 << 20) + 160, 65_536 * 160 + 320, 1 << 32] {
        refused(length);
    }
    assert!(long[..LONGEST] == front, "the log changed");
}
