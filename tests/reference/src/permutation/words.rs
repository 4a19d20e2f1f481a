//! The permutation on whole words: the steps of 003, 2.5 for the 64 bit
//! positions at once.

use super::calls::{count_p12, count_p6};
use super::{State, OFFSETS, ROUND_CONSTANTS, ZERO_STATE};

/// 64 elements of GF(2^5): bit z of word y is the coefficient of a^y of element z.
type Column = [u64; 5];

fn add(left: Column, right: Column) -> Column {
    std::array::from_fn(|y| left[y] ^ right[y])
}

fn add4(a: Column, b: Column, c: Column, d: Column) -> Column {
    add(add(a, b), add(c, d))
}

/// The product by 2, which is the polynomial a. Since a^5 = a^2 + 1, the
/// coefficient of a^4 goes to a^0 and a^2.
fn times_2(c: Column) -> Column {
    [c[4], c[0], c[1] ^ c[4], c[2], c[3]]
}

/// The product by 18, which is the polynomial a^4 + a.
fn times_18(c: Column) -> Column {
    let a1 = times_2(c);
    let a2 = times_2(a1);
    let a3 = times_2(a2);
    let a4 = times_2(a3);
    add(a4, a1)
}

/// mu: the right-hand side of the matrix equation of 003, 2.5.
pub fn mu(state: State) -> State {
    let [z0, z1, z2, z3] = state;
    [
        add4(times_2(z0), z1, z2, z3),
        add4(z0, z1, times_18(z2), times_2(z3)),
        add4(z0, times_2(z1), z2, times_18(z3)),
        add4(z0, times_18(z1), times_2(z2), z3),
    ]
}

/// rho: word (x, y) is rotated left by its offset.
pub fn rho(state: State) -> State {
    let mut next = ZERO_STATE;
    for x in 0..4 {
        for y in 0..5 {
            next[x][y] = state[x][y].rotate_left(OFFSETS[x][y]);
        }
    }
    next
}

/// pi: x' = (x + y) mod 4, y' = (x' + y + 1) mod 5.
pub fn pi(state: State) -> State {
    let mut next = ZERO_STATE;
    for x in 0..4 {
        for y in 0..5 {
            let to_x = (x + y) % 4;
            next[to_x][(to_x + y + 1) % 5] = state[x][y];
        }
    }
    next
}

/// psi: the S-box equation of 003, 2.5 on the five words of each x.
pub fn psi(state: State) -> State {
    let mut next = ZERO_STATE;
    for x in 0..4 {
        let m = state[x];
        let all_ones = m[0] & m[1] & m[2] & m[3] & m[4];
        let all_zeros = !m[0] & !m[1] & !m[2] & !m[3] & !m[4];
        for k in 0..5 {
            next[x][k] = m[k] ^ (!m[(k + 1) % 5] & m[(k + 2) % 5]) ^ all_ones ^ all_zeros;
        }
    }
    next
}

/// kappa: S[0][0] is xored with the constant of the round.
pub fn kappa(mut state: State, number: usize) -> State {
    state[0][0] ^= ROUND_CONSTANTS[number];
    state
}

/// One round: mu, rho, pi, psi, kappa, in that order.
pub fn round(state: State, number: usize) -> State {
    kappa(psi(pi(rho(mu(state)))), number)
}

/// The first `count` rounds, constants from 0; `count` is at most 12.
pub fn rounds(mut state: State, count: usize) -> State {
    for number in 0..count {
        state = round(state, number);
    }
    state
}

/// P6.
pub fn p6(state: State) -> State {
    count_p6();
    rounds(state, 6)
}

/// P12.
pub fn p12(state: State) -> State {
    count_p12();
    rounds(state, 12)
}
