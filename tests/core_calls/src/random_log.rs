//! One random log, right or wrong, held against the reference.

use crate::logs::{spliced, turn_bit};
use crate::states::{random_state, STATE_BITS};
use reference::random::SplitMix64;
use reference::round_log::{log_of, log_with, Verdict, STATE_BYTES};

/// Up to four bits are turned, anywhere or all in one state.
fn damaged(generator: &mut SplitMix64, mut log: Vec<u8>) -> Vec<u8> {
    let states = log.len() / STATE_BYTES;
    let (from, among) = match generator.below(2) {
        0 => (0, states),
        _ => (generator.below(states), 1),
    };
    for _ in 0..=generator.below(4) {
        let bit = STATE_BITS * from + generator.below(STATE_BITS * among);
        turn_bit(&mut log, bit);
    }
    log
}

/// One in three around a right length, else any up to 2,400 bytes.
fn random_length(generator: &mut SplitMix64) -> usize {
    match generator.below(3) {
        0 => STATE_BYTES * generator.below(15) + generator.below(3),
        _ => generator.below(2_401),
    }
}

/// A log of `rounds` rounds, with a round of any constant in it, or from any
/// constant on.
fn other_constants(generator: &mut SplitMix64, rounds: usize) -> Vec<u8> {
    let mut constants: Vec<usize> = (0..rounds).collect();
    match generator.below(2) {
        0 => constants[generator.below(rounds)] = generator.below(12),
        _ => constants.rotate_left(generator.below(rounds)),
    }
    log_with(random_state(generator), constants)
}

/// A log that is right, damaged, of two runs, of other constants, of any bytes,
/// or of any length.
pub fn random_log(generator: &mut SplitMix64) -> Vec<u8> {
    let rounds = 1 + generator.below(12);
    let log = log_of(random_state(generator), rounds);
    match generator.below(8) {
        0..3 => log,
        3 => damaged(generator, log),
        4 => {
            let other = log_of(random_state(generator), rounds);
            spliced(&log, &other, generator.below(rounds + 2))
        }
        5 => other_constants(generator, rounds),
        6 => generator.next_bytes(log.len()),
        _ => {
            let mut log = log_of(random_state(generator), 12);
            log.resize(random_length(generator), 0);
            log
        }
    }
}

/// The call gives the reference's verdict on a random log. Gives it.
pub fn log_call(generator: &mut SplitMix64, what: &dyn Fn() -> String) -> Verdict {
    crate::check_log(&random_log(generator), what)
}
