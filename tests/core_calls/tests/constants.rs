//! Logs of cores whose rounds have other constants.

use core_calls::check_both;
use core_calls::states::starts;
use reference::random::SplitMix64;
use reference::round_log::{log_with, Verdict};

/// A core with these constants, from states of all kinds: the verdict is this.
fn check_core(constants: &[usize], expected: Verdict) {
    let mut generator = SplitMix64::new(0xC025);
    for state in starts(&mut generator, 20) {
        let log = log_with(state, constants.iter().copied());
        check_both(&log, expected, &|| format!("constants {constants:?}"));
    }
}

fn range(from: usize, to: usize) -> Vec<usize> {
    (from..to).collect()
}

/// A core that starts at another constant, such as 6 for the second half of P12.
#[test]
fn not_from_0() {
    for from in 1..12 {
        for to in from + 1..=12 {
            check_core(&range(from, to), Verdict::Differs(0));
        }
    }
}

/// Round 0 has its own constant then.
#[test]
fn constant_0_in_every_round() {
    check_core(&[0], Verdict::Agrees(1));
    for rounds in 2..=12 {
        check_core(&vec![0; rounds], Verdict::Differs(1));
    }
}

/// Constants of the round before, round 0 with its own or with the last; and of
/// the round after.
#[test]
fn one_round_off() {
    for rounds in 2..=12 {
        let before = [vec![0], range(0, rounds - 1)].concat();
        check_core(&before, Verdict::Differs(1));
        let before = [vec![11], range(0, rounds - 1)].concat();
        check_core(&before, Verdict::Differs(0));
        let after = [range(1, rounds), vec![0]].concat();
        check_core(&after, Verdict::Differs(0));
    }
}

/// Constants from 11 down.
#[test]
fn backwards() {
    let mut constants = range(0, 12);
    constants.reverse();
    check_core(&constants, Verdict::Differs(0));
}

/// One round has the constant of another.
#[test]
fn one_constant_wrong() {
    for round in 0..12 {
        for constant in (0..12).filter(|constant| *constant != round) {
            let mut constants = range(0, 12);
            constants[round] = constant;
            check_core(&constants, Verdict::Differs(round));
        }
    }
}

/// A second run of the core in the same log: its constants are from 0 again.
#[test]
fn two_runs_of_p6() {
    check_core(&[range(0, 6), range(0, 6)].concat(), Verdict::Differs(6));
    for rounds in 1..12 {
        let constants = [range(0, rounds), range(0, 12 - rounds)].concat();
        check_core(&constants, Verdict::Differs(rounds));
    }
}
