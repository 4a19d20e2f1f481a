//! The ICEPOLE permutation (003, 2.3 to 2.5), in two versions.
//!
//! `bits` follows the definitions bit by bit. `words` does the same steps on
//! 64 bit positions at once. Both have the same function names, but for
//! `steps`, the states within a round, which `bits` alone has. `calls` counts
//! the calls of P12 and P6.

pub mod bits;
pub mod calls;
pub mod tables;
pub mod words;

pub use tables::{OFFSETS, ROUND_CONSTANTS, STARTING_WORDS};

/// The state S[x][y]: x from 0 to 3, y from 0 to 4, words of 64 bits (003, 2.3).
/// Word number w is x + 4y; bit z of word w is state bit 64w + z.
pub type State = [[u64; 5]; 4];

/// The state with every word zero.
pub const ZERO_STATE: State = [[0; 5]; 4];

/// The coordinates (x', y') to which pi moves the word (x, y) (003, 2.5).
pub fn pi_target(x: usize, y: usize) -> (usize, usize) {
    let to_x = (x + y) % 4;
    let to_y = (to_x + y + 1) % 5;
    (to_x, to_y)
}
