//! Rounds back (request N10): each step undone in both versions, rounds there
//! and back, examples worked out by hand, and the refusals.

use std::array::from_fn;
use std::collections::BTreeSet;

use reference::permutation::bits::{multiply, sbox, slice_bits, Matrix, MATRIX};
use reference::permutation::{self, State, STARTING_WORDS, ZERO_STATE};
use reference::random::SplitMix64;
use reference::round_log::{state_bytes, state_of, Round, STATE_BYTES};
use reference::rounds_back::bits::{inverse_matrix, inverse_sbox};
use reference::rounds_back::{bits, run, run_in_place, words, Rounds};

/// Two versions of a step.
type Steps = [fn(State) -> State; 2];

const INVERSE_MU: Steps = [bits::inverse_mu, words::inverse_mu];
const INVERSE_RHO: Steps = [bits::inverse_rho, words::inverse_rho];
const INVERSE_PI: Steps = [bits::inverse_pi, words::inverse_pi];
const INVERSE_PSI: Steps = [bits::inverse_psi, words::inverse_psi];

/// Two versions of the rounds, and of one round undone.
const FORWARD: [Rounds; 2] = [permutation::bits::rounds, permutation::words::rounds];
const BACK: [Rounds; 2] = [bits::inverse_rounds, words::inverse_rounds];
const ONE_BACK: [Round; 2] = [bits::inverse_round, words::inverse_round];

const ALL_ONES: State = [[u64::MAX; 5]; 4];

fn single_word(x: usize, y: usize, word: u64) -> State {
    let mut state = ZERO_STATE;
    state[x][y] = word;
    state
}

/// Every state with one bit set.
fn single_bits() -> impl Iterator<Item = State> {
    (0..1_280).map(|bit| single_word(bit / 64 % 4, bit / 256, 1 << (bit % 64)))
}

/// Zeros, ones, the starting words, and for each word that word of ones, one bit
/// of it, and a random state.
fn states() -> Vec<State> {
    let mut generator = SplitMix64::new(0xBAC4);
    let mut states = vec![ZERO_STATE, ALL_ONES, STARTING_WORDS];
    for w in 0..20 {
        let (x, y) = (w % 4, w / 4);
        states.push(single_word(x, y, u64::MAX));
        states.push(single_word(x, y, 1 << generator.below(64)));
        states.push(generator.next_state());
    }
    states
}

/// A step and its inverse, one after the other, change nothing, and both
/// versions of the inverse agree.
fn check_step(steps: Steps, inverses: Steps) {
    for state in states() {
        let [before, same] = inverses.map(|inverse| inverse(state));
        assert_eq!(before, same);
        for (step, inverse) in steps.into_iter().zip(inverses) {
            assert_eq!(step(before), state);
            assert_eq!(inverse(step(state)), state);
        }
    }
}

#[test]
fn mu_undone() {
    let mu: Steps = [permutation::bits::mu, permutation::words::mu];
    check_step(mu, INVERSE_MU);
}

#[test]
fn rho_undone() {
    let rho: Steps = [permutation::bits::rho, permutation::words::rho];
    check_step(rho, INVERSE_RHO);
}

#[test]
fn pi_undone() {
    let pi: Steps = [permutation::bits::pi, permutation::words::pi];
    check_step(pi, INVERSE_PI);
}

#[test]
fn psi_undone() {
    let psi: Steps = [permutation::bits::psi, permutation::words::psi];
    check_step(psi, INVERSE_PSI);
}

/// kappa done twice changes nothing.
#[test]
fn kappa_undone() {
    for kappa in [permutation::bits::kappa, permutation::words::kappa] {
        for number in 0..12 {
            for state in states() {
                assert_eq!(kappa(kappa(state, number), number), state);
            }
        }
    }
}

/// One round, and the same round undone.
#[test]
fn one_round_undone() {
    for number in 0..12 {
        for state in states() {
            let after = permutation::words::round(state, number);
            for inverse_round in ONE_BACK {
                assert_eq!(inverse_round(after, number), state);
            }
        }
    }
}

/// The 64 slices with the numbers from this one on; bit 5x + y of its number is
/// the bit of a slice at (x, y).
fn slices_from(first: u64) -> State {
    let bit = |slice: u64, x: usize, y: usize| slice >> (5 * x + y) & 1;
    let word = |x, y| (0..64).fold(0, |word, z| word | bit(first + z, x, y) << z);
    from_fn(|x| from_fn(|y| word(x, y)))
}

/// Each of the 2^20 slices is the image under mu of one slice alone.
#[test]
fn every_slice() {
    let mut seen = vec![false; 1 << 20];
    for first in (0..1 << 20).step_by(64) {
        let state = slices_from(first);
        let before = words::inverse_mu(state);
        assert_eq!(permutation::words::mu(before), state, "from {first} on");
        for z in 0..64 {
            assert_eq!(u64::from(slice_bits(&state, z)), first + z as u64);
            seen[slice_bits(&before, z) as usize] = true;
        }
    }
    assert!(seen.iter().all(|seen| *seen));
}

/// Both versions of mu's inverse are linear, so that they agree everywhere if
/// they do on single bits.
#[test]
fn versions_of_inverse_mu_on_single_bits() {
    for state in single_bits() {
        assert_eq!(bits::inverse_mu(state), words::inverse_mu(state));
    }
}

fn product(left: Matrix, right: Matrix) -> Matrix {
    let entry = |row: usize, column: usize| {
        (0..4).fold(0, |sum, k| sum ^ multiply(left[row][k], right[k][column]))
    };
    from_fn(|row| from_fn(|column| entry(row, column)))
}

#[test]
fn inverse_of_the_matrix() {
    let unit: Matrix = from_fn(|row| from_fn(|column| u8::from(row == column)));
    let inverse = inverse_matrix(MATRIX);
    assert_eq!(product(MATRIX, inverse), unit);
    assert_eq!(product(inverse, MATRIX), unit);
    assert_eq!(inverse_matrix(inverse), MATRIX);
    assert_eq!(inverse_matrix(unit), unit);
    // Rows that must change places.
    let exchange = [[0, 0, 0, 1], [0, 0, 1, 0], [0, 1, 0, 0], [1, 0, 0, 0]];
    assert_eq!(inverse_matrix(exchange), exchange);
}

/// Every five bits, at every x: those at z below 32 are z.
#[test]
fn every_five_bits() {
    for value in 0..32 {
        assert_eq!(inverse_sbox(sbox(value)), value);
        assert_eq!(sbox(inverse_sbox(value)), value);
    }
    let values = slices_from(0)[0];
    let state = permutation::words::psi([values; 4]);
    for inverse_psi in INVERSE_PSI {
        assert_eq!(inverse_psi(state), [values; 4]);
    }
}

/// The marked values of the scope paper, read from their end.
#[test]
fn marked_values() {
    let mut mixed = ZERO_STATE;
    for (x, y) in [(0, 1), (1, 0), (2, 0), (3, 0)] {
        mixed[x][y] = 1;
    }
    for inverse_mu in INVERSE_MU {
        assert_eq!(inverse_mu(mixed), single_word(0, 0, 1));
    }
    for (input, output) in [(0, 31), (31, 0), (1, 9)] {
        assert_eq!(inverse_sbox(output), input);
    }
    for inverse_pi in INVERSE_PI {
        let word = 0x0123456789ABCDEF;
        assert_eq!(inverse_pi(single_word(0, 1, word)), single_word(0, 0, word));
        assert_eq!(inverse_pi(single_word(3, 3, word)), single_word(3, 4, word));
    }
    for inverse_rho in INVERSE_RHO {
        assert_eq!(
            inverse_rho(single_word(1, 0, 1)),
            single_word(1, 0, 1 << 63)
        );
    }
}

/// Constant 0 (003, Appendix A).
const CONSTANT: u64 = 0x0091A2B3C4D5E6F7;

/// From zeros, mu, rho and pi change nothing, and psi makes each 0 a 31.
#[test]
fn one_round_back_to_zeros() {
    let mut wanted = ALL_ONES;
    wanted[0][0] = !CONSTANT;
    for back in BACK {
        assert_eq!(back(wanted, 1), ZERO_STATE);
    }
}

/// kappa undone: word 0 is the constant. psi undone: each 0 was a 31, and at
/// x = 0 each 1 was an 11, which has no bit 2 and no bit 4. pi undone: words
/// (0, 2) and (0, 4) were (3, 1) and (1, 3). rho undone: they were rotated by 55
/// and 45. To this mu leads from the start.
#[test]
fn one_round_back_from_zeros() {
    assert_eq!((sbox(31), sbox(11)), (0, 1));
    let mut mixed = ALL_ONES;
    mixed[3][1] = !CONSTANT.rotate_right(55);
    mixed[1][3] = !CONSTANT.rotate_right(45);
    for back in BACK {
        assert_eq!(permutation::bits::mu(back(ZERO_STATE, 1)), mixed);
    }
}

/// Rounds forward after rounds back, and the reverse, change nothing, in either
/// version; and the versions agree.
#[test]
fn there_and_back() {
    for count in 0..=12 {
        for state in states() {
            let [start, same] = BACK.map(|back| back(state, count));
            assert_eq!(start, same, "{count} rounds back");
            for (back, forward) in BACK.into_iter().zip(FORWARD) {
                assert_eq!(forward(start, count), state, "{count} rounds");
                assert_eq!(back(forward(state, count), count), state, "{count} rounds");
            }
        }
    }
}

/// The last round is undone first: after it, the rounds before it are left. With
/// the first round undone first, another state is reached from two rounds on.
#[test]
fn last_round_first() {
    let state = STARTING_WORDS;
    for count in 1..=12 {
        for (back, inverse_round) in BACK.into_iter().zip(ONE_BACK) {
            let right = back(state, count);
            assert_eq!(back(inverse_round(state, count - 1), count - 1), right);
            let wrong = (0..count).fold(state, inverse_round);
            assert_eq!(wrong == right, count == 1, "{count} rounds");
        }
    }
}

/// Different states have different starts, and lead to different states.
#[test]
fn no_two_alike() {
    let mut generator = SplitMix64::new(0xD1FF);
    let random: Vec<State> = (0..1_000).map(|_| generator.next_state()).collect();
    let states: BTreeSet<State> = states()
        .into_iter()
        .chain(random)
        .chain(single_bits())
        .collect();
    for count in 0..=12 {
        for rounds in [BACK[1], FORWARD[1]] {
            let others: BTreeSet<State> = states.iter().map(|s| rounds(*s, count)).collect();
            assert_eq!(others.len(), states.len(), "{count} rounds");
        }
    }
}

/// Counts above 12, some of which are 0 to 12 in their low bits.
fn counts_refused() -> Vec<u32> {
    let mut counts = vec![13, 14, 15, 255, 1 << 31, u32::MAX];
    for bits in [4, 8, 16, 24] {
        counts.extend((0..=12).map(|count| (1 << bits) + count));
    }
    counts
}

/// Every call, back and forward.
fn all_rounds() -> Vec<Rounds> {
    [BACK, FORWARD].concat()
}

#[test]
fn refused_by_value() {
    for rounds in all_rounds() {
        for count in 0..=12 {
            let after = rounds(STARTING_WORDS, count as usize);
            assert_eq!(run(rounds, STARTING_WORDS, count), Ok(after));
        }
        for count in counts_refused() {
            assert_eq!(run(rounds, STARTING_WORDS, count), Err(20), "{count}");
        }
    }
}

/// 20 whatever the length is, then 5 below 160 bytes; no byte is changed.
#[test]
fn refused_in_place() {
    let bytes = SplitMix64::new(0x4EF5).next_bytes(200);
    let check = |rounds: Rounds, length: usize, count: u32, expected: u32| {
        let mut slice = bytes[..length].to_vec();
        let number = run_in_place(rounds, &mut slice, count);
        assert_eq!(number, expected, "{count} rounds, {length} bytes");
        assert_eq!(slice, bytes[..length], "{count} rounds, {length} bytes");
    };
    for rounds in all_rounds() {
        for count in counts_refused() {
            for length in [0, 1, 159, 160, 161, 200] {
                check(rounds, length, count, 20);
            }
        }
        for count in 0..=12 {
            for length in 0..STATE_BYTES {
                check(rounds, length, count, 5);
            }
        }
        for length in STATE_BYTES..=bytes.len() {
            check(rounds, length, 0, 0);
        }
    }
}

/// The first 160 bytes are the state; later ones stay.
#[test]
fn done_in_place() {
    let bytes = SplitMix64::new(0x9ACE).next_bytes(400);
    let (front, rest) = bytes.split_at(STATE_BYTES);
    for rounds in all_rounds() {
        for count in 0..=12 {
            for later in [0, 1, 7, 8, 160, 240] {
                let mut slice = bytes[..STATE_BYTES + later].to_vec();
                assert_eq!(run_in_place(rounds, &mut slice, count), 0);
                let after = state_bytes(&rounds(state_of(front), count as usize));
                assert_eq!(slice, [&after, &rest[..later]].concat());
            }
        }
    }
}
