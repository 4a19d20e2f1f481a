//! What the calls refuse: more than 12 rounds with 20, whatever the length is,
//! and else a slice below 160 bytes with 5. No byte changes.

use core_calls::rounds::CALLS;
use reference::random::SplitMix64;

/// Lengths that are too short, and lengths that are not.
const LENGTHS: [usize; 9] = [0, 1, 8, 20, 159, 160, 161, 320, 400];

/// Both calls refuse slices of these lengths and these counts with this number,
/// whatever the bytes are.
fn check_refused(lengths: &[usize], counts: impl IntoIterator<Item = u32>, number: u32) {
    let random = SplitMix64::new(0x4EF5ED).next_bytes(400);
    let slices = [random, vec![0x00; 400], vec![0xFF; 400]];
    for count in counts {
        for length in lengths {
            for slice in &slices {
                for call in CALLS {
                    let slice = &slice[..*length];
                    call.check_both(slice, count, number, slice);
                }
            }
        }
    }
}

#[test]
fn too_many_rounds() {
    check_refused(&[159, 160], 13..1_000, 20);
    let some = [13, 14, 15, 24, 127, 128, 255, 65_535, 1 << 30, u32::MAX / 2];
    check_refused(&LENGTHS, some, 20);
}

/// Counts that are 0 to 12 in 4, 8, 16, 24 or 31 bits only.
#[test]
fn right_in_the_low_bits_only() {
    for bits in [4, 8, 16, 24, 31] {
        let far = 1 << bits;
        check_refused(&LENGTHS, far..=far + 12, 20);
    }
}

/// Counts that would be below 0 if they had a sign.
#[test]
fn the_last_numbers() {
    check_refused(&LENGTHS, u32::MAX - 12..=u32::MAX, 20);
}

#[test]
fn slices_too_short() {
    let lengths: Vec<usize> = (0..160).collect();
    check_refused(&lengths, 0..=12, 5);
}
