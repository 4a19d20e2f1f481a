//! The generator of the constants (request N8): the starting words are lanes of
//! Keccak-f[1600] (FIPS 202), the round constants follow a step rule.
//!
//! Keccak is here in two versions. `bits` follows the algorithms of FIPS 202 bit
//! by bit. `lanes` does the same steps on 64 bit positions at once. Both have
//! the same names for the steps.

use crate::permutation::State;

pub mod bits;
pub mod lanes;

/// Keccak's state: lane i is A[x, y] with x = i mod 5 and y = i div 5, and its
/// bit z is A[x, y, z]. So bit z of lane i is bit 64i + z of the string (FIPS
/// 202, 3.1.2).
pub type Lanes = [u64; 25];

/// S[x][y] is lane 5(x + 1) + y of Keccak-f[1600] of the zero state (N8).
pub fn starting_words() -> State {
    let lanes = bits::keccak_f([0; 25]);
    std::array::from_fn(|x| std::array::from_fn(|y| lanes[5 * (x + 1) + y]))
}

/// A step: shifts right by one, and also sets bit 31 when bits 0, 1, 3 and 4
/// before the shift hold an odd number of ones (N8).
pub fn next_constant(value: u64) -> u64 {
    let ones = (value & 0b11011).count_ones();
    let shifted = value >> 1;
    if ones % 2 == 1 {
        shifted | 1 << 31
    } else {
        shifted
    }
}

/// The round constants; the first step gives constant 0 (N8).
pub fn round_constants() -> [u64; 12] {
    let mut value = 0x0123456789ABCDEF;
    std::array::from_fn(|_| {
        value = next_constant(value);
        value
    })
}

/// The starting words in word order, then the constants from 0, each as a line
/// of 16 hex digits in capitals (N8).
pub fn text() -> String {
    let starting = starting_words();
    let in_word_order = (0..20).map(|w| starting[w % 4][w / 4]);
    in_word_order
        .chain(round_constants())
        .map(|word| format!("{word:016X}\n"))
        .collect()
}
