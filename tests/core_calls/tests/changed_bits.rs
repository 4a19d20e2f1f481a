//! Logs with changed bits: the first round that differs is named.

use std::collections::BTreeSet;

use core_calls::check_both;
use core_calls::logs::turn_bit;
use core_calls::states::{starts, STATE_BITS};
use reference::random::SplitMix64;
use reference::round_log::{differing_rounds, log_of, Verdict};

/// The round that is named where this state is the first to be changed: the one
/// that leads to it, and round 0 where no round does.
fn first_round(state: usize) -> usize {
    state.saturating_sub(1)
}

/// The rounds that differ where this state alone is changed. The round that
/// leads to it does, since it leads to the state that was there. The round that
/// starts from it does too, since no two states lead to the same one, and the
/// state behind it is still that of the old one. A checker that goes on to the
/// end, or looks from there, would name the second.
fn both_rounds(state: usize, rounds: usize) -> Vec<usize> {
    let to = state.checked_sub(1);
    let from = (state < rounds).then_some(state);
    to.into_iter().chain(from).collect()
}

/// Every bit of a log of each length, from states of all kinds.
#[test]
fn every_bit() {
    let mut generator = SplitMix64::new(0xB175);
    for rounds in 1..=12 {
        for start in starts(&mut generator, 2) {
            check_every_bit(log_of(start, rounds), rounds);
        }
    }
}

fn check_every_bit(mut log: Vec<u8>, rounds: usize) {
    for bit in 0..8 * log.len() {
        let state = bit / STATE_BITS;
        let what = || format!("bit {} of state {state}", bit % STATE_BITS);
        turn_bit(&mut log, bit);
        let differing = both_rounds(state, rounds);
        assert_eq!(differing_rounds(&log), differing, "{}", what());
        check_both(&log, Verdict::Differs(first_round(state)), &what);
        turn_bit(&mut log, bit);
    }
}

/// Bits anywhere in the log: the first changed state decides.
#[test]
fn several_bits() {
    let mut generator = SplitMix64::new(0x5EBE4);
    for number in 0..20_000 {
        let mut log = log_of(generator.next_state(), 1 + number % 12);
        let count = 2 + generator.below(20);
        let all = 8 * log.len();
        let bits: BTreeSet<usize> = (0..count).map(|_| generator.below(all)).collect();
        for bit in &bits {
            turn_bit(&mut log, *bit);
        }
        let round = first_round(bits.first().unwrap() / STATE_BITS);
        check_both(&log, Verdict::Differs(round), &|| format!("bits {bits:?}"));
    }
}

/// The same bits in states that follow one another, so that the same difference
/// stands on both sides of a round.
#[test]
fn the_same_bits_in_many_states() {
    let mut generator = SplitMix64::new(0x5A3E);
    for rounds in 1..=12 {
        let log = log_of(generator.next_state(), rounds);
        for from in 0..=rounds {
            for to in from + 1..=rounds + 1 {
                let mut changed = log.clone();
                let bits: Vec<usize> = (0..3).map(|_| generator.below(STATE_BITS)).collect();
                for state in from..to {
                    for bit in &bits {
                        turn_bit(&mut changed, STATE_BITS * state + bit);
                    }
                }
                let what = || format!("bits {bits:?} of states {from} to {}", to - 1);
                check_both(&changed, Verdict::Differs(first_round(from)), &what);
            }
        }
    }
}
