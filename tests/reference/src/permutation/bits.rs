//! The permutation bit by bit, straight from the definitions of 003, 2.5.

use super::calls::{count_p12, count_p6};
use super::{pi_target, State, OFFSETS, ROUND_CONSTANTS, ZERO_STATE};

/// A matrix over GF(2^5); an entry's bit i is the coefficient of a^i.
pub type Matrix = [[u8; 4]; 4];

/// The matrix of mu (003, 2.5).
pub const MATRIX: Matrix = [[2, 1, 1, 1], [1, 1, 18, 2], [1, 2, 1, 18], [1, 18, 2, 1]];

/// a^5 + a^2 + 1, the modulus of GF(2^5) (003, 2.5).
const MODULUS: u16 = 0b100101;

/// Bit S[x][y][z] (003, 2.3).
pub fn bit(state: &State, x: usize, y: usize, z: usize) -> u8 {
    ((state[x][y] >> z) & 1) as u8
}

/// The five bits over y at one x and z; bit y of the result is S[x][y][z].
pub fn five_bits(state: &State, x: usize, z: usize) -> u8 {
    (0..5).fold(0, |value, y| value | (bit(state, x, y, z) << y))
}

/// The twenty bits of slice z; bit 5x + y of the result is S[x][y][z].
pub fn slice_bits(state: &State, z: usize) -> u32 {
    (0..4).fold(0, |slice, x| {
        slice | u32::from(five_bits(state, x, z)) << (5 * x)
    })
}

/// Xors five bits over y into the state at one x and z.
fn xor_five_bits(state: &mut State, x: usize, z: usize, value: u8) {
    for y in 0..5 {
        state[x][y] ^= u64::from((value >> y) & 1) << z;
    }
}

/// The product in GF(2^5): binary polynomials modulo a^5 + a^2 + 1 (003, 2.5).
pub fn multiply(left: u8, right: u8) -> u8 {
    let mut product: u16 = 0;
    for i in 0..5 {
        if (left >> i) & 1 == 1 {
            product ^= u16::from(right) << i;
        }
    }
    for degree in (5..=8).rev() {
        if (product >> degree) & 1 == 1 {
            product ^= MODULUS << (degree - 5);
        }
    }
    product as u8
}

/// Each slice, as four elements of GF(2^5), is multiplied by a matrix.
pub fn multiply_slices(matrix: Matrix, state: State) -> State {
    let mut next = ZERO_STATE;
    for z in 0..64 {
        for x in 0..4 {
            let mut sum = 0;
            for k in 0..4 {
                sum ^= multiply(matrix[x][k], five_bits(&state, k, z));
            }
            xor_five_bits(&mut next, x, z, sum);
        }
    }
    next
}

/// mu: each slice, as four elements of GF(2^5), is multiplied by the matrix.
pub fn mu(state: State) -> State {
    multiply_slices(MATRIX, state)
}

/// rho: bit z of word (x, y) moves to (z + offset) mod 64.
pub fn rho(state: State) -> State {
    let mut next = ZERO_STATE;
    for x in 0..4 {
        for y in 0..5 {
            for z in 0..64 {
                let to_z = (z + OFFSETS[x][y] as usize) % 64;
                next[x][y] |= u64::from(bit(&state, x, y, z)) << to_z;
            }
        }
    }
    next
}

/// pi: the word (x, y) moves to (x', y').
pub fn pi(state: State) -> State {
    let mut next = ZERO_STATE;
    for x in 0..4 {
        for y in 0..5 {
            let (to_x, to_y) = pi_target(x, y);
            for z in 0..64 {
                next[to_x][to_y] |= u64::from(bit(&state, x, y, z)) << z;
            }
        }
    }
    next
}

/// The S-box on five bits; M_k and Z_k are bit k of the numbers (003, 2.5).
pub fn sbox(input: u8) -> u8 {
    let m = |k: u8| (input >> (k % 5)) & 1;
    let not = |value: u8| value ^ 1;
    let all_ones = m(0) & m(1) & m(2) & m(3) & m(4);
    let all_zeros = not(m(0)) & not(m(1)) & not(m(2)) & not(m(3)) & not(m(4));
    let mut output = 0;
    for k in 0..5 {
        let z_k = m(k) ^ (not(m(k + 1)) & m(k + 2)) ^ all_ones ^ all_zeros;
        output |= z_k << k;
    }
    output
}

/// A map of five bits on those over y, for each x and z.
pub fn map_five_bits(map: impl Fn(u8) -> u8, state: State) -> State {
    let mut next = ZERO_STATE;
    for x in 0..4 {
        for z in 0..64 {
            xor_five_bits(&mut next, x, z, map(five_bits(&state, x, z)));
        }
    }
    next
}

/// psi: the S-box on the five bits over y, for each x and z.
pub fn psi(state: State) -> State {
    map_five_bits(sbox, state)
}

/// kappa: S[0][0] is xored with the constant of the round.
pub fn kappa(state: State, number: usize) -> State {
    let mut next = state;
    next[0][0] ^= ROUND_CONSTANTS[number];
    next
}

/// The state after each of the five steps of a round: after mu, rho, pi, psi,
/// kappa.
pub fn steps(state: State, number: usize) -> [State; 5] {
    let mixed = mu(state);
    let rotated = rho(mixed);
    let moved = pi(rotated);
    let boxed = psi(moved);
    [mixed, rotated, moved, boxed, kappa(boxed, number)]
}

/// One round: mu, rho, pi, psi, kappa, in that order.
pub fn round(state: State, number: usize) -> State {
    kappa(psi(pi(rho(mu(state)))), number)
}

/// The first `count` rounds, constants from 0; `count` is at most 12.
pub fn rounds(state: State, count: usize) -> State {
    (0..count).fold(state, round)
}

/// P6.
pub fn p6(state: State) -> State {
    count_p6();
    rounds(state, 6)
}

/// P12.
pub fn p12(state: State) -> State {
    count_p12();
    rounds(state, 12)
}
