//! Many random calls of check, fetch, record and list, good and bad, against
//! the reference.

use std::collections::BTreeSet;

use burst_calls::random_read::read_call;
use reference::random::SplitMix64;

/// Round `n` has the seed plus `n`.
const ROUNDS: u64 = 20_000;
const SEED: u64 = 0x4EAD_5000_0000;

#[test]
fn random_calls() {
    let mut seen = [(); 5].map(|_| BTreeSet::new());
    for round in 0..ROUNDS {
        let seed = SEED + round;
        let what = || format!("round {round}, seed {seed:#x}");
        let numbers = read_call(&mut SplitMix64::new(seed), &what);
        for (seen, number) in seen.iter_mut().zip(numbers) {
            seen.insert(number);
        }
    }
    assert_eq!(seen[0], BTreeSet::from([0, 1, 5, 7, 12]));
    assert_eq!(seen[1], BTreeSet::from([0, 1, 5, 7, 12, 13]));
    assert_eq!(seen[2], BTreeSet::from([0, 1, 7, 12, 13]));
    assert_eq!(seen[3], BTreeSet::from([0, 5, 12]));
    assert_eq!(seen[4], BTreeSet::from([0, 1, 2]));
}
