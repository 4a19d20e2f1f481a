//! Round logs of the hardware core (request N9): the state before a run and
//! after every round, 160 bytes a state, in word order.
//!
//! A log is judged round by round. Round i has constant i, and is judged by the
//! state that is logged before it: a round that follows rightly from a wrong
//! state is right. The first round that differs would be the same by the states
//! of the run from state 0, since up to there those are the logged ones.

use crate::permutation::{bits, words, State, STARTING_WORDS, ZERO_STATE};
use crate::sealing::words::xor_bytes;

pub use crate::sealing::words::state_bytes;

/// The bytes of a state.
pub const STATE_BYTES: usize = 160;

/// A log has one round at least, and at most so many.
pub const MOST_ROUNDS: usize = 12;

/// The refusal number of a log of another length.
pub const REFUSAL: u32 = 19;

/// What a checker says of a log.
#[derive(Clone, Copy, Debug, PartialEq, Eq)]
pub enum Verdict {
    /// Each state is one round from the one before; so many rounds.
    Agrees(usize),
    /// The first round that differs, counted from 0.
    Differs(usize),
    /// The length is not that of 1 + r states, r from 1 to 12.
    Refused,
}

impl Verdict {
    /// The line that the program `check_round_log` prints.
    pub fn line(self) -> String {
        match self {
            Verdict::Agrees(rounds) => format!("agrees, {rounds} rounds\n"),
            Verdict::Differs(round) => format!("round {round} differs\n"),
            Verdict::Refused => format!("refused {REFUSAL}\n"),
        }
    }
}

/// One round of a state, with the constant of this number: `bits::round`, the
/// definition, or `words::round`, the quick version.
pub type Round = fn(State, usize) -> State;

/// The state of 160 bytes: the reverse of `state_bytes`.
pub fn state_of(bytes: &[u8]) -> State {
    assert_eq!(bytes.len(), STATE_BYTES);
    xor_bytes(ZERO_STATE, bytes)
}

/// The log of a run from a state, with rounds of these constants.
pub fn log_by(round: Round, state: State, constants: impl IntoIterator<Item = usize>) -> Vec<u8> {
    let mut state = state;
    let mut log = state_bytes(&state).to_vec();
    for constant in constants {
        state = round(state, constant);
        log.extend(state_bytes(&state));
    }
    log
}

/// The same by the quick version.
pub fn log_with(state: State, constants: impl IntoIterator<Item = usize>) -> Vec<u8> {
    log_by(words::round, state, constants)
}

/// The log of so many rounds from a state, constants from 0.
pub fn log_of(state: State, rounds: usize) -> Vec<u8> {
    log_with(state, 0..rounds)
}

/// The log of P12 from the starting words, by the definition. It is stored as
/// the program's input.
pub fn stored_log() -> Vec<u8> {
    log_by(bits::round, STARTING_WORDS, 0..12)
}

/// The rounds of a log that differ: state i + 1 is not round i of state i.
fn differing_by(round: Round, log: &[u8]) -> Vec<usize> {
    let states: Vec<State> = log.chunks(STATE_BYTES).map(state_of).collect();
    let differs = |&i: &usize| states[i + 1] != round(states[i], i);
    (0..states.len() - 1).filter(differs).collect()
}

/// The rounds that differ of a log whose length is right.
pub fn differing_rounds(log: &[u8]) -> Vec<usize> {
    differing_by(words::round, log)
}

/// A log of 1 + r states, r from 1 to 12.
fn length_is_right(length: usize) -> bool {
    (1..=MOST_ROUNDS).any(|r| length == STATE_BYTES * (1 + r))
}

/// The verdict on a log, its rounds worked out by `round`.
pub fn check_log_by(round: Round, log: &[u8]) -> Verdict {
    if !length_is_right(log.len()) {
        return Verdict::Refused;
    }
    match differing_by(round, log).first() {
        Some(first) => Verdict::Differs(*first),
        None => Verdict::Agrees(log.len() / STATE_BYTES - 1),
    }
}

/// The verdict on a log, by the quick version.
pub fn check_log(log: &[u8]) -> Verdict {
    check_log_by(words::round, log)
}
