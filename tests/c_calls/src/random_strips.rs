//! Random cuts of a message, random lists of strip calls, good and bad, and
//! random strip states.

use crate::case::Case;
use crate::random::{buffer_length, case_of, length, spare, spoil_length};
use crate::strip_list::{StripCall, StripList};
use crate::strip_pair::StripPair;
use crate::strips::{CIPHER_BYTES, FINISHED_AT, STATE_BYTES};
use reference::random::SplitMix64;
use reference::sealing::{Variant, MAXIMUM};

/// A strip that begins after `before` bytes: none, one byte, up to the end of
/// a block or a byte beside it, or anything.
fn strip_length(generator: &mut SplitMix64, before: usize, most: usize) -> usize {
    let to_edge = 128 * (1 + generator.below(2)) - before % 128;
    match generator.below(8) {
        0 => 0,
        1 => 1,
        2 => to_edge - 1,
        3 => to_edge,
        4 => to_edge + 1,
        _ => generator.below(most + 1),
    }
}

/// Lengths of strips, each at most `most` bytes or two blocks and a byte, that
/// make up `total` bytes. One time in four an empty strip comes last.
pub fn random_cut(generator: &mut SplitMix64, total: usize, most: usize) -> Vec<usize> {
    let mut lengths = Vec::new();
    let mut before = 0;
    while before < total {
        let length = strip_length(generator, before, most).min(total - before);
        lengths.push(length);
        before += length;
    }
    if generator.below(4) == 0 {
        lengths.push(0);
    }
    lengths
}

/// A case of ICEPOLE-128 whose message has 0 to 400 bytes, one in three at or
/// beside a whole block.
pub fn case_to_cut(generator: &mut SplitMix64) -> Case {
    let msg = match generator.below(9) {
        0 => 128 * generator.below(4),
        1 => 127 + 128 * generator.below(3),
        2 => 129 + 128 * generator.below(3),
        _ => generator.below(401),
    };
    let ad = length(generator);
    let first = generator.below(ad + 1);
    Case::random(generator, Variant::Icepole128, first, ad - first, msg)
}

/// One call in six is an end; one in six has an output that may be too short.
fn random_call(generator: &mut SplitMix64) -> StripCall {
    if generator.below(6) == 0 {
        let out_len = match generator.below(2) {
            0 => generator.below(17),
            _ => 16 + spare(generator),
        };
        return StripCall::End { out_len };
    }
    let count = generator.below(4);
    let length = strip_length(generator, 0, 100 * count);
    StripCall::Strip {
        msg: generator.next_bytes(length),
        out_len: buffer_length(generator, length),
    }
}

/// Up to nine calls, most times an end, and one time in three calls after it.
fn random_calls(generator: &mut SplitMix64) -> Vec<StripCall> {
    let mut calls = Vec::new();
    for _ in 0..generator.below(10) {
        calls.push(random_call(generator));
    }
    if generator.below(5) > 0 {
        calls.push(StripCall::End { out_len: 16 });
    }
    if generator.below(3) == 0 {
        for _ in 0..=generator.below(3) {
            calls.push(random_call(generator));
        }
    }
    calls
}

/// A strip state's length one time in two, else longer, one time in twelve
/// shorter.
fn state_length(generator: &mut SplitMix64) -> usize {
    match generator.below(12) {
        0 => generator.below(STATE_BYTES),
        1..6 => STATE_BYTES + spare(generator),
        _ => STATE_BYTES,
    }
}

/// A list of calls; one start in three may have wrong lengths.
pub fn random_list(generator: &mut SplitMix64) -> StripList {
    let mut case = case_of(generator, Variant::Icepole128);
    case.msg.clear();
    let (mut out_len, mut state_len) = (16 + spare(generator), STATE_BYTES);
    if generator.below(3) == 0 {
        spoil_length(generator, &mut case.key);
        spoil_length(generator, &mut case.nonce);
        spoil_length(generator, &mut case.secret);
        out_len = buffer_length(generator, 16);
        state_len = state_length(generator);
    }
    StripList {
        case,
        out_len,
        state_len,
        calls: random_calls(generator),
    }
}

/// The bytes of a state with this count and last byte, otherwise random.
pub fn state_with(generator: &mut SplitMix64, count: u64, finished: u8) -> Vec<u8> {
    let mut state = generator.next_bytes(STATE_BYTES);
    state[CIPHER_BYTES..FINISHED_AT].copy_from_slice(&count.to_le_bytes());
    state[FINISHED_AT] = finished;
    state
}

/// A state that anybody may make: any count, often near the maximum, and any
/// last byte, most times 0; one in twelve has too few bytes.
pub fn random_state(generator: &mut SplitMix64) -> Vec<u8> {
    let count = match generator.below(8) {
        0 => generator.next_word() >> generator.below(64),
        1 => (MAXIMUM + 1 - generator.below(3)) as u64,
        2..4 => (MAXIMUM - generator.below(600)) as u64,
        4..6 => generator.below(600) as u64,
        _ => generator.below(MAXIMUM + 1) as u64,
    };
    let finished = match generator.below(10) {
        0 => generator.below(256) as u8,
        _ => 0,
    };
    let mut state = state_with(generator, count, finished);
    state.resize(state_length(generator), 0x5A);
    state
}

/// Random calls on a state, against the reference. Gives the calls and their
/// numbers.
pub fn calls_on_state(
    generator: &mut SplitMix64,
    state: &[u8],
    what: &dyn Fn() -> String,
) -> Vec<(&'static str, u32)> {
    let mut pair = StripPair::holding(state);
    let mut told = Vec::new();
    for call in random_calls(generator) {
        let number = call.perform(&mut pair, what).err().unwrap_or(0);
        told.push((call.name(), number));
    }
    told
}
