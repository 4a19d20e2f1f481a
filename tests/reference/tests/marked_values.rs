//! The marked values of the scope paper that speak of the permutation.

use reference::permutation::{bits, pi_target, words, State, ZERO_STATE};

const VERSIONS_OF_MU: [fn(State) -> State; 2] = [bits::mu, words::mu];
const VERSIONS_OF_RHO: [fn(State) -> State; 2] = [bits::rho, words::rho];
const VERSIONS_OF_PI: [fn(State) -> State; 2] = [bits::pi, words::pi];
const VERSIONS_OF_PSI: [fn(State) -> State; 2] = [bits::psi, words::psi];

fn single_word(x: usize, y: usize, word: u64) -> State {
    let mut state = ZERO_STATE;
    state[x][y] = word;
    state
}

#[test]
fn mu_of_the_lowest_bit() {
    let mut expected = ZERO_STATE;
    for (x, y) in [(0, 1), (1, 0), (2, 0), (3, 0)] {
        expected[x][y] = 1;
    }
    for mu in VERSIONS_OF_MU {
        assert_eq!(mu(single_word(0, 0, 1)), expected);
    }
}

/// psi applies the S-box at every x and z; M_k is the bit in S[x][k].
fn check_sbox_value(input: u8, output: u8) {
    assert_eq!(bits::sbox(input), output);
    for psi in VERSIONS_OF_PSI {
        for x in 0..4 {
            for z in 0..64 {
                let mut state = ZERO_STATE;
                for k in 0..5 {
                    state[x][k] = u64::from((input >> k) & 1) << z;
                }
                let after = psi(state);
                assert_eq!(bits::five_bits(&after, x, z), output, "x {x}, z {z}");
            }
        }
    }
}

#[test]
fn sbox_0_to_31() {
    check_sbox_value(0, 31);
}

#[test]
fn sbox_31_to_0() {
    check_sbox_value(31, 0);
}

#[test]
fn sbox_1_to_9() {
    check_sbox_value(1, 9);
}

fn check_pi_move(from: (usize, usize), to: (usize, usize)) {
    let word = 0x0123456789ABCDEF;
    assert_eq!(pi_target(from.0, from.1), to);
    for pi in VERSIONS_OF_PI {
        let after = pi(single_word(from.0, from.1, word));
        assert_eq!(after, single_word(to.0, to.1, word));
    }
}

#[test]
fn pi_moves_0_0_to_0_1() {
    check_pi_move((0, 0), (0, 1));
}

#[test]
fn pi_moves_3_4_to_3_3() {
    check_pi_move((3, 4), (3, 3));
}

#[test]
fn rho_moves_bit_63_of_word_1_0_to_bit_0() {
    for rho in VERSIONS_OF_RHO {
        assert_eq!(rho(single_word(1, 0, 1 << 63)), single_word(1, 0, 1));
    }
}
