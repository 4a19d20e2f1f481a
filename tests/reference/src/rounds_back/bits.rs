//! The five steps of 003, 2.5 undone bit by bit: mu by the inverse of its matrix
//! over GF(2^5), the S-box by a search.

use std::array::from_fn;

use crate::permutation::bits::{
    bit, kappa, map_five_bits, multiply, multiply_slices, sbox, Matrix, MATRIX,
};
use crate::permutation::{pi_target, State, OFFSETS, ZERO_STATE};

/// The element of GF(2^5) whose product with this one, which is not 0, is 1.
fn reciprocal(element: u8) -> u8 {
    (1..32).find(|v| multiply(element, *v) == 1).unwrap()
}

/// The inverse of a matrix over GF(2^5), by elimination: what makes the matrix
/// the unit matrix makes the unit matrix, written behind it, the inverse.
pub fn inverse_matrix(matrix: Matrix) -> Matrix {
    let unit = |row, column| u8::from(row == column);
    let mut rows: [[u8; 8]; 4] = from_fn(|row| {
        from_fn(|column| match column {
            0..4 => matrix[row][column],
            _ => unit(row, column - 4),
        })
    });
    for pivot in 0..4 {
        let row = (pivot..4).find(|row| rows[*row][pivot] != 0).unwrap();
        rows.swap(pivot, row);
        let scale = reciprocal(rows[pivot][pivot]);
        let scaled = rows[pivot].map(|entry| multiply(scale, entry));
        rows[pivot] = scaled;
        for row in (0..4).filter(|row| *row != pivot) {
            let factor = rows[row][pivot];
            rows[row] = from_fn(|k| rows[row][k] ^ multiply(factor, scaled[k]));
        }
    }
    from_fn(|row| from_fn(|column| rows[row][4 + column]))
}

/// mu undone: each slice is multiplied by the inverse of the matrix.
pub fn inverse_mu(state: State) -> State {
    multiply_slices(inverse_matrix(MATRIX), state)
}

/// rho undone: bit z of word (x, y) comes from (z + offset) mod 64, where rho
/// moved it.
pub fn inverse_rho(state: State) -> State {
    let mut before = ZERO_STATE;
    for x in 0..4 {
        for y in 0..5 {
            for z in 0..64 {
                let from_z = (z + OFFSETS[x][y] as usize) % 64;
                before[x][y] |= u64::from(bit(&state, x, y, from_z)) << z;
            }
        }
    }
    before
}

/// pi undone: the word (x, y) comes from (x', y'), where pi moved it.
pub fn inverse_pi(state: State) -> State {
    let mut before = ZERO_STATE;
    for x in 0..4 {
        for y in 0..5 {
            let (from_x, from_y) = pi_target(x, y);
            for z in 0..64 {
                before[x][y] |= u64::from(bit(&state, from_x, from_y, z)) << z;
            }
        }
    }
    before
}

/// The five bits that the S-box maps to these.
pub fn inverse_sbox(output: u8) -> u8 {
    (0..32).find(|input| sbox(*input) == output).unwrap()
}

/// psi undone: the S-box undone on the five bits over y, for each x and z.
pub fn inverse_psi(state: State) -> State {
    let table: [u8; 32] = from_fn(|output| inverse_sbox(output as u8));
    map_five_bits(|output| table[usize::from(output)], state)
}

/// One round undone: kappa, which undoes itself, psi, pi, rho, mu.
pub fn inverse_round(state: State, number: usize) -> State {
    inverse_mu(inverse_rho(inverse_pi(inverse_psi(kappa(state, number)))))
}

/// The first `count` rounds undone, the last of them first; `count` is at most
/// 12.
pub fn inverse_rounds(state: State, count: usize) -> State {
    (0..count).rev().fold(state, inverse_round)
}
