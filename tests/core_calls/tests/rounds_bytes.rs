//! Which bytes of a slice are the state, and which of them are which word:
//! rounds worked out by hand, longer slices, and slices at every address.

use core_calls::rounds::{BACK, CALLS, FORWARD};
use reference::permutation::STARTING_WORDS;
use reference::random::SplitMix64;
use reference::round_log::{state_bytes, STATE_BYTES};

/// One round leads from `before` to ones, with constant 0 xored into them, but
/// for these zeros: bits z of S[x][y], for three y each.
fn check_one_round(before: [u8; STATE_BYTES], zeros: &[(usize, usize, [usize; 3])]) {
    let mut after = [0xFF; STATE_BYTES];
    // Constant 0 is 0091A2B3C4D5E6F7.
    after[..7].copy_from_slice(&[0x08, 0x19, 0x2A, 0x3B, 0x4C, 0x5D, 0x6E]);
    for (x, z, rows) in zeros {
        for y in rows {
            let bit = 64 * (x + 4 * y) + z;
            after[bit / 8] ^= 1 << (bit % 8);
        }
    }
    FORWARD.check_both(&before, 1, 0, &after);
    BACK.check_both(&after, 1, 0, &before);
}

/// mu, rho and pi leave zeros, and the S-box maps 0 to 31.
#[test]
fn zeros_by_hand() {
    check_one_round([0; STATE_BYTES], &[]);
}

/// Bit 0 of S[0][0]. mu: bit 0 of (0, 1), (1, 0), (2, 0), (3, 0). rho: bits 36,
/// 1, 62, 28 of these. pi: the words are (1, 3), (1, 2), (2, 3), (3, 4). psi: a
/// one at y alone becomes ones at y and y - 2.
#[test]
fn first_bit_by_hand() {
    let mut before = [0; STATE_BYTES];
    before[0] = 0x01;
    let zeros = [
        (1, 36, [0, 2, 4]),
        (1, 1, [1, 3, 4]),
        (2, 62, [0, 2, 4]),
        (3, 28, [0, 1, 3]),
    ];
    check_one_round(before, &zeros);
}

/// Bit 63 of S[3][4], which is 16 in its column. mu: 16, 2 * 16 = 5,
/// 18 * 16 = 8, 16, so bit 63 of (0, 4), (1, 0), (1, 2), (2, 3), (3, 4). rho:
/// bits 17, 0, 9, 14, 55. pi: (0, 0), (1, 2), (3, 1), (1, 0), (3, 3). psi as
/// above.
#[test]
fn last_bit_by_hand() {
    let mut before = [0; STATE_BYTES];
    before[159] = 0x80;
    let zeros = [
        (0, 17, [1, 2, 4]),
        (1, 0, [1, 3, 4]),
        (3, 9, [0, 2, 3]),
        (1, 14, [1, 2, 4]),
        (3, 55, [0, 2, 4]),
    ];
    check_one_round(before, &zeros);
}

/// Every byte behind the state stays.
#[test]
fn longer_slices() {
    let mut generator = SplitMix64::new(0x107E4);
    for length in STATE_BYTES..=400 {
        let slice = generator.next_bytes(length);
        for count in 0..=12 {
            for call in CALLS {
                assert_eq!(call.check(&slice, count, &|| "longer".into()), 0);
            }
        }
    }
}

/// Lengths that are below 160 in 8, 16, 24 or 32 bits only. Behind the state are
/// zeros, which the system hands out when they are touched.
#[test]
fn long_slices() {
    let state = state_bytes(&STARTING_WORDS);
    let start = state_bytes(&BACK.run(STARTING_WORDS, 12));
    let mut long = vec![0; (1 << 32) + STATE_BYTES];
    long[..STATE_BYTES].copy_from_slice(&state);
    for bits in [8, 16, 24, 32] {
        for more in [0, 1, 8, 159] {
            let slice = &mut long[..(1 << bits) + more];
            for (call, after) in [(BACK.call, start), (FORWARD.call, state)] {
                assert_eq!(call(slice, 12), 0, "{} bytes", slice.len());
                assert!(slice[..STATE_BYTES] == after, "{} bytes", slice.len());
            }
        }
    }
    let (front, rest) = long.split_at(100_000);
    assert!(front[STATE_BYTES..].iter().all(|byte| *byte == 0));
    assert!(rest[rest.len() - 100_000..].iter().all(|byte| *byte == 0));
}

/// A state may stand at any address: here at 16 that follow one another.
#[test]
fn every_address() {
    for from in 0..16 {
        for call in CALLS {
            let mut lent = [0x5A; 16 + STATE_BYTES + 16];
            let at = from..from + STATE_BYTES;
            lent[at.clone()].copy_from_slice(&state_bytes(&STARTING_WORDS));
            let mut expected = lent;
            expected[at.clone()].copy_from_slice(&state_bytes(&call.run(STARTING_WORDS, 12)));
            assert_eq!((call.call)(&mut lent[at], 12), 0);
            assert_eq!(lent, expected, "{}, {from} bytes further", call.name);
        }
    }
}
