//! Logs put together from several runs, or cut out of one: the first round that
//! differs is named, whatever follows it.

use core_calls::check_both;
use core_calls::logs::{spliced, turn_bit};
use core_calls::states::{sparse_state, starts, STATE_BITS};
use reference::random::SplitMix64;
use reference::round_log::{differing_rounds, log_of, log_with, state_of, Verdict, STATE_BYTES};

/// From state k on, the log is that of another run. The round that leads there
/// differs, and no other.
#[test]
fn two_runs() {
    let mut generator = SplitMix64::new(0x25911CE);
    for state in starts(&mut generator, 20) {
        let other = generator.next_state();
        for rounds in 1..=12 {
            let (first, second) = (log_of(state, rounds), log_of(other, rounds));
            for k in 1..=rounds {
                let log = spliced(&first, &second, k);
                assert_eq!(differing_rounds(&log), [k - 1]);
                let what = || format!("another run from state {k} on");
                check_both(&log, Verdict::Differs(k - 1), &what);
            }
        }
    }
}

/// From state k on another run, and from state m on the first one again: rounds
/// k - 1 and m - 1 differ.
#[test]
fn another_run_in_the_middle() {
    let mut generator = SplitMix64::new(0x35911CE);
    let first = log_of(generator.next_state(), 12);
    let second = log_of(generator.next_state(), 12);
    for k in 1..12 {
        for m in k + 1..=12 {
            let log = spliced(&spliced(&first, &second, k), &first, m);
            assert_eq!(differing_rounds(&log), [k - 1, m - 1]);
            let what = || format!("states {k} to {} of another run", m - 1);
            check_both(&log, Verdict::Differs(k - 1), &what);
        }
    }
}

/// State k is wrong, by one bit or altogether, and the rest follows rightly from
/// it: round k - 1 alone differs. From state 0, it is a right log.
#[test]
fn the_rest_follows_from_a_wrong_state() {
    let mut generator = SplitMix64::new(0x3E57);
    for rounds in 1..=12 {
        let log = log_of(generator.next_state(), rounds);
        for k in 0..=rounds {
            let right = &log[STATE_BYTES * k..STATE_BYTES * (k + 1)];
            let mut near = right.to_vec();
            turn_bit(&mut near, generator.below(STATE_BITS));
            let (any, sparse) = (generator.next_state(), sparse_state(&mut generator));
            for wrong in [state_of(&near), any, sparse] {
                let rest = log_with(wrong, k..rounds);
                let changed = [&log[..STATE_BYTES * k], &rest].concat();
                let expected = match k {
                    0 => Verdict::Agrees(rounds),
                    _ => Verdict::Differs(k - 1),
                };
                check_both(&changed, expected, &|| format!("state {k} is wrong"));
            }
        }
    }
}

/// Parts of the log of a P12 that do not begin with its first state: every round
/// has another constant than it would have from 0.
#[test]
fn from_the_middle_of_a_run() {
    let mut generator = SplitMix64::new(0x31DD1E);
    for state in starts(&mut generator, 20) {
        let whole = log_of(state, 12);
        for from in 1..12 {
            for to in from + 1..=12 {
                let part = &whole[STATE_BYTES * from..STATE_BYTES * (to + 1)];
                let all: Vec<usize> = (0..to - from).collect();
                assert_eq!(differing_rounds(part), all);
                let what = || format!("rounds {from} to {} of P12", to - 1);
                check_both(part, Verdict::Differs(0), &what);
            }
        }
    }
}

/// A log of these states, by their numbers in the log of a P12.
fn log_of_states(numbers: &[usize]) -> Vec<u8> {
    let log = log_of(SplitMix64::new(0x0DE4).next_state(), 12);
    let state = |number: &usize| &log[STATE_BYTES * number..STATE_BYTES * (number + 1)];
    numbers.iter().flat_map(state).copied().collect()
}

/// State k is left out: the round that leads to the state behind it differs. The
/// last one is not missed.
#[test]
fn a_state_left_out() {
    for k in 0..=12 {
        let numbers: Vec<usize> = (0..=12).filter(|number| *number != k).collect();
        let expected = match k {
            0 => Verdict::Differs(0),
            12 => Verdict::Agrees(11),
            _ => Verdict::Differs(k - 1),
        };
        let log = log_of_states(&numbers);
        check_both(&log, expected, &|| format!("no state {k}"));
    }
}

/// State k is there twice: no round leads from it to itself.
#[test]
fn a_state_twice() {
    for k in 0..=11 {
        let numbers: Vec<usize> = (0..=k).chain(k..=11).collect();
        let log = log_of_states(&numbers);
        check_both(&log, Verdict::Differs(k), &|| format!("state {k} twice"));
    }
}

/// States k and k + 1 have changed places, or all are in the reverse order.
#[test]
fn states_out_of_their_order() {
    let mut numbers: Vec<usize> = (0..=12).collect();
    for k in 0..12 {
        numbers.swap(k, k + 1);
        let expected = Verdict::Differs(k.saturating_sub(1));
        let log = log_of_states(&numbers);
        check_both(&log, expected, &|| format!("states {numbers:?}"));
        numbers.swap(k, k + 1);
    }
    numbers.reverse();
    let log = log_of_states(&numbers);
    check_both(&log, Verdict::Differs(0), &|| "backwards".into());
}
