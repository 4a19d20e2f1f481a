//! The five steps of 003, 2.5 undone on whole words: mu by linear algebra over
//! GF(2), the S-box by looking for each of its 32 outputs.

use std::array::from_fn;
use std::sync::LazyLock;

use crate::permutation::bits::{sbox, slice_bits};
use crate::permutation::words::{kappa, mu};
use crate::permutation::{State, OFFSETS, ZERO_STATE};

/// The bits of a slice; bit 5x + y is that of the word (x, y).
const SLICE: usize = 20;

/// What mu makes of a slice with this bit alone.
fn image(bit: usize) -> u32 {
    let mut state = ZERO_STATE;
    state[bit / 5][bit % 5] = 1;
    slice_bits(&mu(state), 0)
}

/// For each bit, the slice that mu makes a slice with this bit alone, by
/// elimination on pairs of a slice and its image. Since mu is linear, the sum of
/// two such pairs is one too.
fn preimages() -> [u32; SLICE] {
    let mut pairs: [(u32, u32); SLICE] = from_fn(|bit| (1 << bit, image(bit)));
    for bit in 0..SLICE {
        let has_bit = |pair: (u32, u32)| pair.1 >> bit & 1 == 1;
        let at = (bit..SLICE).find(|at| has_bit(pairs[*at])).unwrap();
        pairs.swap(bit, at);
        let (slice, image) = pairs[bit];
        for at in (0..SLICE).filter(|at| *at != bit) {
            if has_bit(pairs[at]) {
                pairs[at].0 ^= slice;
                pairs[at].1 ^= image;
            }
        }
    }
    pairs.map(|(slice, _)| slice)
}

static PREIMAGES: LazyLock<[u32; SLICE]> = LazyLock::new(preimages);

/// mu undone: the sum of the preimages of the bits that are set, at every z.
pub fn inverse_mu(state: State) -> State {
    let mut before = ZERO_STATE;
    for (from, preimage) in PREIMAGES.iter().enumerate() {
        for to in (0..SLICE).filter(|to| preimage >> to & 1 == 1) {
            before[to / 5][to % 5] ^= state[from / 5][from % 5];
        }
    }
    before
}

/// rho undone: word (x, y) is rotated right by its offset.
pub fn inverse_rho(state: State) -> State {
    from_fn(|x| from_fn(|y| state[x][y].rotate_right(OFFSETS[x][y])))
}

/// pi undone: y = (y' - x' - 1) mod 5, x = (x' - y) mod 4.
pub fn inverse_pi(state: State) -> State {
    let mut before = ZERO_STATE;
    for from_x in 0..4 {
        for from_y in 0..5 {
            let y = (from_y + 9 - from_x) % 5;
            before[(from_x + 4 - y) % 4][y] = state[from_x][from_y];
        }
    }
    before
}

/// psi undone: where the five bits are the S-box's output for m, they were m.
pub fn inverse_psi(state: State) -> State {
    let mut before = ZERO_STATE;
    for m in 0..32 {
        let output = sbox(m);
        for x in 0..4 {
            let same = |y: usize| match output >> y & 1 {
                1 => state[x][y],
                _ => !state[x][y],
            };
            let positions = same(0) & same(1) & same(2) & same(3) & same(4);
            for y in (0..5).filter(|y| m >> y & 1 == 1) {
                before[x][y] |= positions;
            }
        }
    }
    before
}

/// One round undone: kappa, which undoes itself, psi, pi, rho, mu.
pub fn inverse_round(state: State, number: usize) -> State {
    inverse_mu(inverse_rho(inverse_pi(inverse_psi(kappa(state, number)))))
}

/// The first `count` rounds undone, the last of them first; `count` is at most
/// 12.
pub fn inverse_rounds(state: State, count: usize) -> State {
    (0..count).rev().fold(state, inverse_round)
}
