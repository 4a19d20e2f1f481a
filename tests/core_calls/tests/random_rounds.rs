//! Many random calls that run rounds, against the reference.

use std::collections::BTreeSet;

use core_calls::random_rounds::rounds_call;
use reference::random::SplitMix64;

/// Case `n` has the seed plus `n`.
const CASES: u64 = 100_000;
const SEED: u64 = 0x20_0000_0000;

/// Every number comes from both calls.
#[test]
fn random_rounds() {
    let mut seen = BTreeSet::new();
    for number in 0..CASES {
        let seed = SEED + number;
        let what = || format!("case {number}, seed {seed:#x}");
        seen.insert(rounds_call(&mut SplitMix64::new(seed), &what));
    }
    let numbers = |call| [0, 5, 20].map(|number| (call, number));
    let expected = [numbers("rounds_back"), numbers("rounds_forward")].concat();
    assert_eq!(seen, expected.into_iter().collect());
}
