//! The calls undo each other, lead where a log of the run says they do, and give
//! no start twice. Nothing here is held against the reference.

use std::collections::BTreeSet;

use core_calls::judge;
use core_calls::rounds::{BACK, FORWARD};
use core_calls::states::{patterns, starts};
use reference::permutation::State;
use reference::random::SplitMix64;
use reference::round_log::state_bytes;

/// Rare states and random ones.
fn states() -> Vec<State> {
    let mut generator = SplitMix64::new(0x7E4E);
    [patterns(), starts(&mut generator, 500)].concat()
}

#[test]
fn forward_after_back() {
    for state in states() {
        for count in 0..=12 {
            let start = BACK.run(state, count);
            assert_eq!(FORWARD.run(start, count), state, "{count} rounds");
        }
    }
}

#[test]
fn back_after_forward() {
    for state in states() {
        for count in 0..=12 {
            let after = FORWARD.run(state, count);
            assert_eq!(BACK.run(after, count), state, "{count} rounds");
        }
    }
}

/// The states of a run from the start that is found: each is one round from the
/// one before, says the call of round logs, and the last is the wanted one.
#[test]
fn log_of_the_run() {
    for wanted in states() {
        for rounds in 1..=12 {
            let start = BACK.run(wanted, rounds);
            let run: Vec<State> = (0..=rounds).map(|n| FORWARD.run(start, n)).collect();
            assert_eq!((run[0], run[rounds as usize]), (start, wanted));
            let log: Vec<u8> = run.iter().flat_map(state_bytes).collect();
            assert_eq!(judge(&log), (0, 1, rounds), "state {wanted:x?}");
        }
    }
}

/// Different states have different starts, and lead to different states.
#[test]
fn no_two_alike() {
    let states: BTreeSet<State> = states().into_iter().collect();
    assert!(states.len() > 3_000);
    for count in 0..=12 {
        for call in [BACK, FORWARD] {
            let others = states.iter().map(|state| call.run(*state, count));
            let others: BTreeSet<State> = others.collect();
            assert_eq!(others.len(), states.len(), "{}, {count} rounds", call.name);
        }
    }
}
