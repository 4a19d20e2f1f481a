//! Random lists of lengths for burst_size_up.

use crate::random_list::one_of;
use crate::sizing::check_size;
use reference::random::SplitMix64;

/// The longest picture.
pub const LONGEST: u64 = 1_048_576;

/// Lengths around blocks, around 16 bits, and the longest there are.
pub const EDGES: [u64; 13] = [
    0,
    1,
    127,
    128,
    129,
    255,
    256,
    257,
    65_535,
    65_536,
    65_537,
    LONGEST - 1,
    LONGEST,
];

/// Lengths that are refused. The low 16 or 32 bits of some are not.
pub const TOO_LONG: [u64; 8] = [
    LONGEST + 1,
    LONGEST + 128,
    1 << 21,
    1 << 32,
    (1 << 32) + 1,
    (1 << 32) + LONGEST,
    1 << 63,
    u64::MAX,
];

/// Dropped, small, around a block or two, or some thousand bytes. The longest
/// come rarely: the reference seals every byte.
fn random_length(generator: &mut SplitMix64) -> u64 {
    match generator.below(40) {
        0..10 => 0,
        10..16 => one_of(generator, &EDGES[1..8]),
        16 => generator.below(5_000) as u64,
        17 if generator.below(100) == 0 => one_of(generator, &EDGES),
        _ => 1 + generator.below(300) as u64,
    }
}

/// A length that is refused: a known one, the first few, or one that has its
/// low bits alone in range.
pub fn random_too_long(generator: &mut SplitMix64) -> u64 {
    match generator.below(3) {
        0 => one_of(generator, &TOO_LONG),
        1 => LONGEST + 1 + generator.below(300) as u64,
        _ => generator.below(300) as u64 | 1 << (21 + generator.below(43)),
    }
}

/// Most lists have up to 60 shots, some a few more, and few are far too long.
fn random_count(generator: &mut SplitMix64) -> usize {
    match generator.below(30) {
        0..2 => 58 + generator.below(6),
        2 => 61 + generator.below(1_000),
        3..13 => generator.below(61),
        _ => generator.below(12),
    }
}

/// One list in eight has one to three lengths that are refused.
pub fn random_lengths(generator: &mut SplitMix64) -> Vec<u64> {
    let count = random_count(generator);
    let mut lengths: Vec<u64> = (0..count).map(|_| random_length(generator)).collect();
    if count > 0 && generator.below(8) == 0 {
        for _ in 0..=generator.below(3) {
            lengths[generator.below(count)] = random_too_long(generator);
        }
    }
    lengths
}

/// The call gives the reference's answer on a random list. Gives its number.
pub fn size_call(generator: &mut SplitMix64, what: &dyn Fn() -> String) -> u32 {
    let answer = check_size(&random_lengths(generator), what);
    answer.err().unwrap_or(0)
}
