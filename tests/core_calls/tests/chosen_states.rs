//! States that a bench may choose, and random ones: for every count of rounds
//! the calls give what the reference does.

use core_calls::rounds::CALLS;
use core_calls::states::{patterns, starts};
use reference::permutation::State;
use reference::random::SplitMix64;
use reference::round_log::state_bytes;

fn check_states(states: Vec<State>) {
    for state in states {
        for count in 0..=12 {
            for call in CALLS {
                let what = || format!("state {state:x?}");
                assert_eq!(call.check(&state_bytes(&state), count, &what), 0);
            }
        }
    }
}

/// Zeros, ones, every single bit, and the like.
#[test]
fn rare_states() {
    check_states(patterns());
}

#[test]
fn random_and_sparse_states() {
    check_states(starts(&mut SplitMix64::new(0xC405E4), 2_000));
}
