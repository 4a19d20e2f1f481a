//! The bit-level and the word-level version agree, step by step and as a whole.

use reference::permutation::{bits, words, State, STARTING_WORDS, ZERO_STATE};
use reference::random::SplitMix64;

const RANDOM_STATES: usize = 400;

/// The zero state, the starting state, and pseudo-random states; every fourth
/// of these is the and of three others, so that it has few ones.
fn states() -> Vec<State> {
    let mut generator = SplitMix64::new(0x1CE901E);
    let mut states = vec![ZERO_STATE, STARTING_WORDS];
    for number in 0..RANDOM_STATES {
        let mut state = generator.next_state();
        if number % 4 == 3 {
            state = and(state, and(generator.next_state(), generator.next_state()));
        }
        states.push(state);
    }
    states
}

fn and(a: State, b: State) -> State {
    std::array::from_fn(|x| std::array::from_fn(|y| a[x][y] & b[x][y]))
}

fn check_step(of_bits: fn(State) -> State, of_words: fn(State) -> State) {
    for (number, state) in states().into_iter().enumerate() {
        assert_eq!(of_bits(state), of_words(state), "state {number}");
    }
}

#[test]
fn mu_agrees() {
    check_step(bits::mu, words::mu);
}

#[test]
fn rho_agrees() {
    check_step(bits::rho, words::rho);
}

#[test]
fn pi_agrees() {
    check_step(bits::pi, words::pi);
}

#[test]
fn psi_agrees() {
    check_step(bits::psi, words::psi);
}

/// Each state of `steps` is what the word-level step makes of the state before,
/// and the fifth is the state after the round.
#[test]
fn steps_agree() {
    let step: [fn(State) -> State; 4] = [words::mu, words::rho, words::pi, words::psi];
    for state in states() {
        for number in 0..12 {
            let steps = bits::steps(state, number);
            let before = [state, steps[0], steps[1], steps[2]];
            for k in 0..4 {
                assert_eq!(steps[k], step[k](before[k]), "round {number}, step {k}");
            }
            assert_eq!(steps[4], words::round(state, number), "round {number}");
        }
    }
}

#[test]
fn kappa_agrees() {
    for state in states() {
        for number in 0..12 {
            let after = bits::kappa(state, number);
            assert_eq!(after, words::kappa(state, number), "constant {number}");
            assert_ne!(after, state, "constant {number}");
        }
    }
}

#[test]
fn round_agrees() {
    for state in states() {
        for number in 0..12 {
            let of_bits = bits::round(state, number);
            assert_eq!(of_bits, words::round(state, number), "round {number}");
        }
    }
}

#[test]
fn p6_agrees() {
    check_step(bits::p6, words::p6);
}

#[test]
fn p12_agrees() {
    check_step(bits::p12, words::p12);
}

// rounds(state, n) is n single rounds with the constants 0 to n - 1.
#[test]
fn rounds_are_single_rounds_in_order() {
    for start in [ZERO_STATE, STARTING_WORDS] {
        let mut state = start;
        for count in 0..=12 {
            assert_eq!(bits::rounds(start, count), state, "bits, {count} rounds");
            assert_eq!(words::rounds(start, count), state, "words, {count} rounds");
            if count < 12 {
                state = words::kappa(words::psi(words::pi(words::rho(words::mu(state)))), count);
            }
            if count == 6 {
                assert_eq!(bits::p6(start), bits::rounds(start, 6));
            }
        }
        assert_eq!(bits::p12(start), bits::rounds(start, 12));
        assert_ne!(bits::p12(start), bits::p6(bits::p6(start)));
    }
}
