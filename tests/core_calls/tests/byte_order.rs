//! States whose bytes are in another order than that of the words w = x + 4y,
//! low byte first.

use core_calls::states::{starts, ALL_ONES};
use core_calls::{check_both, check_log};
use reference::permutation::{State, STARTING_WORDS, ZERO_STATE};
use reference::random::SplitMix64;
use reference::round_log::{log_of, Verdict, STATE_BYTES};

/// Another order of the bytes of a state: where byte j of it stood.
type Order = fn(usize) -> usize;

/// The log with each state's bytes in another order.
fn reordered(log: &[u8], order: Order) -> Vec<u8> {
    let byte = |at: usize| log[at / STATE_BYTES * STATE_BYTES + order(at % STATE_BYTES)];
    (0..log.len()).map(byte).collect()
}

/// Word 5x + y is S[x][y], which stands at x + 4y.
fn column_order(j: usize) -> usize {
    let (x, y) = (j / 8 / 5, j / 8 % 5);
    8 * (x + 4 * y) + j % 8
}

fn high_byte_first(j: usize) -> usize {
    j / 8 * 8 + 7 - j % 8
}

fn last_byte_first(j: usize) -> usize {
    STATE_BYTES - 1 - j
}

fn last_word_first(j: usize) -> usize {
    STATE_BYTES - 8 - j / 8 * 8 + j % 8
}

/// The halves of each word changed over.
fn high_half_first(j: usize) -> usize {
    j ^ 4
}

const ORDERS: [(&str, Order); 5] = [
    ("column order", column_order),
    ("high byte first", high_byte_first),
    ("last byte first", last_byte_first),
    ("last word first", last_word_first),
    ("high half first", high_half_first),
];

/// States that are the same in another order may pass, but no log of 12 rounds
/// is made of such states.
#[test]
fn other_orders_of_bytes() {
    let mut generator = SplitMix64::new(0x04DE4);
    for state in starts(&mut generator, 40) {
        for (name, order) in ORDERS {
            let log = reordered(&log_of(state, 12), order);
            let verdict = check_log(&log, &|| format!("{name}, {state:x?}"));
            assert!(matches!(verdict, Verdict::Differs(_)), "{name}");
        }
    }
}

/// Starts without symmetry: round 0 differs in every log.
#[test]
fn round_0_differs() {
    let mut generator = SplitMix64::new(0x4A2D);
    let states: Vec<State> = (0..20).map(|_| generator.next_state()).collect();
    for state in [&states[..], &[STARTING_WORDS, ALL_ONES]].concat() {
        for (name, order) in ORDERS {
            for rounds in 1..=12 {
                let log = reordered(&log_of(state, rounds), order);
                check_both(&log, Verdict::Differs(0), &|| name.into());
            }
        }
    }
}

/// From zeros, one round leads to ones everywhere but in word 0, which is word 0
/// of the column order too: that round passes, and the next one does not.
#[test]
fn zeros_in_column_order() {
    for rounds in 1..=12 {
        let log = reordered(&log_of(ZERO_STATE, rounds), column_order);
        let expected = match rounds {
            1 => Verdict::Agrees(1),
            _ => Verdict::Differs(1),
        };
        check_both(&log, expected, &|| "zeros in column order".into());
    }
}

/// The bits of each byte the other way round.
#[test]
fn high_bit_first() {
    let mut generator = SplitMix64::new(0x816);
    for _ in 0..20 {
        let log = log_of(generator.next_state(), 12);
        let log: Vec<u8> = log.into_iter().map(u8::reverse_bits).collect();
        check_both(&log, Verdict::Differs(0), &|| "high bit first".into());
    }
}
