//! States of all kinds: random ones, some with a few ones, some with a pattern.

use std::array::from_fn;

use reference::permutation::{State, ROUND_CONSTANTS, STARTING_WORDS, ZERO_STATE};
use reference::random::SplitMix64;
use reference::round_log::STATE_BYTES;

/// The bits of a state.
pub const STATE_BITS: usize = 8 * STATE_BYTES;

/// Every word all ones.
pub const ALL_ONES: State = [[u64::MAX; 5]; 4];

/// A state with a few ones.
pub fn sparse_state(generator: &mut SplitMix64) -> State {
    let mut state = ZERO_STATE;
    for _ in 0..=generator.below(3) {
        state[generator.below(4)][generator.below(5)] |= 1 << generator.below(64);
    }
    state
}

/// One time in four a state with a few ones.
pub fn random_state(generator: &mut SplitMix64) -> State {
    match generator.below(4) {
        0 => sparse_state(generator),
        _ => generator.next_state(),
    }
}

/// Zeros, ones, the starting words, and `count` random states, every other one
/// of these with a few ones.
pub fn starts(generator: &mut SplitMix64, count: usize) -> Vec<State> {
    let mut states = vec![ZERO_STATE, ALL_ONES, STARTING_WORDS];
    for number in 0..count {
        states.push(match number % 2 {
            0 => generator.next_state(),
            _ => sparse_state(generator),
        });
    }
    states
}

/// The state with ones for zeros and zeros for ones.
fn complement(state: State) -> State {
    state.map(|column| column.map(|word| !word))
}

/// The state with this word wherever `chosen` says so, and zeros elsewhere.
fn state_with(word: u64, chosen: impl Fn(usize, usize) -> bool) -> State {
    from_fn(|x| from_fn(|y| if chosen(x, y) { word } else { 0 }))
}

/// This word alone, in each of the twenty places.
fn single_words(word: u64) -> impl Iterator<Item = State> {
    (0..20).map(move |w| state_with(word, |x, y| x + 4 * y == w))
}

/// This word everywhere, in one column x, in one row y, and alone.
fn states_of_word(word: u64) -> Vec<State> {
    let mut states = vec![[[word; 5]; 4]];
    for column in 0..4 {
        states.push(state_with(word, |x, _| x == column));
    }
    for row in 0..5 {
        states.push(state_with(word, |_, y| y == row));
    }
    states.extend(single_words(word));
    states
}

/// A state of one word in some places, or its complement.
pub fn random_pattern(generator: &mut SplitMix64) -> State {
    let word = match generator.below(3) {
        0 => u64::MAX,
        1 => 1 << generator.below(64),
        _ => generator.next_word(),
    };
    let states = states_of_word(word);
    let state = states[generator.below(states.len())];
    match generator.below(2) {
        0 => state,
        _ => complement(state),
    }
}

/// States with a pattern, and their complements: zeros, the starting words, one
/// word in some places, every slice of ones, every single bit.
pub fn patterns() -> Vec<State> {
    let mut states = vec![ZERO_STATE, STARTING_WORDS];
    for word in [u64::MAX, u64::MAX / 3, u64::MAX << 32, ROUND_CONSTANTS[0]] {
        states.extend(states_of_word(word));
    }
    for z in 0..64 {
        states.push([[1 << z; 5]; 4]);
        states.extend(single_words(1 << z));
    }
    states.extend(states.clone().into_iter().map(complement));
    states
}
