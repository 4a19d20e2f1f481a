//! One random call that runs rounds, held against the reference.

use crate::rounds::CALLS;
use crate::states::{random_pattern, random_state};
use reference::random::SplitMix64;
use reference::round_log::{state_bytes, STATE_BYTES};

/// Seven in eight from 0 to 12, else a few more, any number, or one whose low
/// bits alone are from 0 to 12.
fn random_count(generator: &mut SplitMix64) -> u32 {
    let count = generator.below(13) as u32;
    match generator.below(24) {
        0 => 13 + count,
        1 => generator.next_word() as u32,
        2 => count | 1 << (4 + generator.below(28)),
        _ => count,
    }
}

/// Half of them a state's, one in eight next to it, else any below 400.
fn random_length(generator: &mut SplitMix64) -> usize {
    match generator.below(8) {
        0..4 => STATE_BYTES,
        4 => STATE_BYTES - 1 + generator.below(3),
        _ => generator.below(400),
    }
}

/// The bytes of a state of any kind, and others behind them, or only some of
/// them.
fn random_slice(generator: &mut SplitMix64) -> Vec<u8> {
    let state = match generator.below(3) {
        0 => random_pattern(generator),
        _ => random_state(generator),
    };
    let length = random_length(generator);
    let mut slice = state_bytes(&state).to_vec();
    slice.extend(generator.next_bytes(length.saturating_sub(STATE_BYTES)));
    slice.truncate(length);
    slice
}

/// One of the calls gives the reference's number and bytes. Gives its name and
/// the number.
pub fn rounds_call(generator: &mut SplitMix64, what: &dyn Fn() -> String) -> (&'static str, u32) {
    let call = &CALLS[generator.below(2)];
    let (slice, count) = (random_slice(generator), random_count(generator));
    (call.name, call.check(&slice, count, what))
}
