//! The state byte by byte, for data that comes so: strips, and opening in place.

use crate::permutation::{words::p6, State};

/// Byte j of the state, in word w = x + 4y.
pub fn byte(state: &State, j: usize) -> u8 {
    let w = j / 8;
    (state[w % 4][w / 4] >> (8 * (j % 8))) as u8
}

pub fn xor_byte(state: &mut State, j: usize, value: u8) {
    let w = j / 8;
    state[w % 4][w / 4] ^= u64::from(value) << (8 * (j % 8));
}

/// The frame bit and a 1 behind a block of `length` bytes, then P6.
pub fn end_block(state: &State, length: usize, frame: bool) -> State {
    let mut padded = *state;
    xor_byte(&mut padded, length, if frame { 3 } else { 2 });
    p6(padded)
}
