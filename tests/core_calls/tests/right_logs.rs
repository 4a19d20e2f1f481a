//! Logs of every count of rounds, from states of all kinds, agree.

use core_calls::states::starts;
use core_calls::{check_both, judge};
use reference::permutation::STARTING_WORDS;
use reference::random::SplitMix64;
use reference::round_log::{log_of, stored_log, Verdict};

#[test]
fn every_count_of_rounds() {
    let mut generator = SplitMix64::new(0x217);
    for (number, state) in starts(&mut generator, 400).into_iter().enumerate() {
        for rounds in 1..=12 {
            let log = log_of(state, rounds);
            check_both(&log, Verdict::Agrees(rounds), &|| format!("state {number}"));
        }
    }
}

/// The log that the definition makes bit by bit.
#[test]
fn log_of_p12() {
    check_both(&stored_log(), Verdict::Agrees(12), &|| "P12".into());
}

/// A log may stand at any address: here at 16 that follow one another. What
/// stands beside it does not matter, not even more of the same log.
#[test]
fn every_address() {
    let whole = log_of(STARTING_WORDS, 12);
    for from in 0..16 {
        let lent = [&vec![0x5A; from], &whole[..]].concat();
        for rounds in 1..=12 {
            let log = &lent[from..from + 160 * (1 + rounds)];
            assert_eq!(judge(log), (0, 1, rounds as u32), "{from} bytes further");
        }
        assert!(lent[from..] == whole, "the log changed");
    }
}
