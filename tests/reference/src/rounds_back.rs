//! Rounds back (request N10): the state from which so many rounds, constants
//! from 0, reach a wanted one. Each of the five steps is undone, the last round
//! first. Rounds forward undo them.
//!
//! `bits` undoes the steps bit by bit, `words` on 64 bit positions at once, each
//! by its own means. Both have the same function names.

pub mod bits;
pub mod words;

use crate::permutation::State;
use crate::round_log::{state_bytes, state_of, MOST_ROUNDS, STATE_BYTES};

/// So many rounds of a state, at most 12: `inverse_rounds` of either version, or
/// `rounds` of either version of the permutation.
pub type Rounds = fn(State, usize) -> State;

/// The refusal number of more than 12 rounds.
pub const TOO_MANY_ROUNDS: u32 = 20;

/// The refusal number of a slice that is too short for a state.
pub const TOO_SHORT: u32 = 5;

/// The count, or the refusal number.
fn checked(count: u32) -> Result<usize, u32> {
    match count as usize {
        count @ 0..=MOST_ROUNDS => Ok(count),
        _ => Err(TOO_MANY_ROUNDS),
    }
}

/// The state after so many rounds, back or forward, or the refusal number.
pub fn run(rounds: Rounds, state: State, count: u32) -> Result<State, u32> {
    Ok(rounds(state, checked(count)?))
}

/// The bytes of the state at the front of a slice after so many rounds, or the
/// refusal number, in the order 20, 5.
fn front_after(rounds: Rounds, slice: &[u8], count: u32) -> Result<[u8; STATE_BYTES], u32> {
    let count = checked(count)?;
    let front = slice.get(..STATE_BYTES).ok_or(TOO_SHORT)?;
    Ok(state_bytes(&rounds(state_of(front), count)))
}

/// Runs so many rounds on the state at the front of a slice: the refusal number,
/// 0 when done. Later bytes stay, and where it is refused all do.
pub fn run_in_place(rounds: Rounds, slice: &mut [u8], count: u32) -> u32 {
    match front_after(rounds, slice, count) {
        Ok(front) => {
            slice[..STATE_BYTES].copy_from_slice(&front);
            0
        }
        Err(number) => number,
    }
}
