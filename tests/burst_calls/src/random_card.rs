//! Random cards, shots and picture lengths for burst_card_line.

use crate::cards::{asked, check_card, length_by_sum, Asked};
use crate::random_list::one_of;
use crate::random_size::{random_too_long, EDGES, LONGEST};
use reference::random::SplitMix64;

/// The most shots.
pub const MOST: u64 = 60;

/// Counts of shots that are refused. The low 8, 16 or 32 bits of some are not.
pub const BAD_SHOTS: [u64; 16] = [
    0,
    MOST + 1,
    MOST + 2,
    64,
    120,
    256,
    (1 << 8) + 1,
    (1 << 8) + MOST,
    (1 << 16) + 1,
    (1 << 16) + MOST,
    1 << 32,
    (1 << 32) + 1,
    (1 << 32) + MOST,
    (1 << 63) + 1,
    u64::MAX - 255,
    u64::MAX,
];

/// Few, the most, or any.
fn random_shots(generator: &mut SplitMix64) -> u64 {
    match generator.below(8) {
        0 => one_of(generator, &[1, 2, MOST - 1, MOST]),
        _ => 1 + generator.below(60) as u64,
    }
}

/// A count that is refused: a known one, the first few, or one that has its low
/// bits alone in range.
fn random_bad_shots(generator: &mut SplitMix64) -> u64 {
    match generator.below(3) {
        0 => one_of(generator, &BAD_SHOTS),
        1 => MOST + 1 + generator.below(300) as u64,
        _ => random_shots(generator) | 1 << (6 + generator.below(58)),
    }
}

/// Of every magnitude, and edges.
fn random_picture(generator: &mut SplitMix64) -> u64 {
    match generator.below(8) {
        0 => one_of(generator, &EDGES[1..]),
        _ => 1 + ((generator.next_word() % LONGEST) >> generator.below(21)),
    }
}

/// No picture at all, or one that is too long.
fn random_bad_picture(generator: &mut SplitMix64) -> u64 {
    match generator.below(4) {
        0 => 0,
        _ => random_too_long(generator),
    }
}

/// Of every magnitude, or a few bytes around some files of this length.
fn random_card(generator: &mut SplitMix64, length: u64) -> u64 {
    let any = generator.next_word() >> generator.below(64);
    let around = generator.below(5) as u64;
    match generator.below(3) {
        0 => any,
        _ => (any - any % length)
            .saturating_add(around)
            .saturating_sub(2),
    }
}

/// One count of shots in six is refused, and one picture length in six.
pub fn random_asked(generator: &mut SplitMix64) -> Asked {
    let (mut shots, mut picture) = (random_shots(generator), random_picture(generator));
    let card = random_card(generator, length_by_sum(shots, picture));
    if generator.below(6) == 0 {
        shots = random_bad_shots(generator);
    }
    if generator.below(6) == 0 {
        picture = random_bad_picture(generator);
    }
    asked(card, shots, picture)
}

/// The call gives the reference's answer on random numbers. Gives its number.
pub fn card_call(generator: &mut SplitMix64, what: &dyn Fn() -> String) -> u32 {
    let answer = check_card(random_asked(generator), what);
    answer.err().unwrap_or(0)
}
