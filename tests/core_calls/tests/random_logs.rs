//! Many random logs, right and wrong, against the reference.

use std::collections::BTreeSet;

use core_calls::numbers;
use core_calls::random_log::log_call;
use reference::random::SplitMix64;

/// Log `n` has the seed plus `n`.
const LOGS: u64 = 100_000;
const SEED: u64 = 0x106_0000_0000;

/// Every answer comes: agreeing in 1 to 12 rounds, rounds 0 to 11 that differ,
/// and 19.
#[test]
fn random_logs() {
    let mut seen = BTreeSet::new();
    for number in 0..LOGS {
        let seed = SEED + number;
        let what = || format!("log {number}, seed {seed:#x}");
        seen.insert(numbers(log_call(&mut SplitMix64::new(seed), &what)));
    }
    let differing = (0..12).map(|round| (0, 0, round));
    let agreeing = (1..=12).map(|rounds| (0, 1, rounds));
    let expected = differing.chain(agreeing).chain([(19, 0, 0)]);
    assert_eq!(seen, expected.collect());
}
