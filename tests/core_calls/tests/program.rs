//! The program `check_round_log` prints the reference's line, takes its input in
//! pieces of any size, and ends on every input.

use std::fs::File;
use std::process::Stdio;

use core_calls::logs::{spliced, turn_bit};
use lister::program::{write_pieces, write_while_read, Program};
use reference::permutation::{STARTING_WORDS, ZERO_STATE};
use reference::random::SplitMix64;
use reference::round_log::{check_log, log_of, log_with, stored_log, STATE_BYTES};

const CHECKER: Program = Program("check_round_log");

const REFUSED: &str = "refused 19\n";

/// The input that is stored with the program.
const STORED: &str = concat!(
    env!("CARGO_MANIFEST_DIR"),
    "/../../crates/check_round_log/stdin"
);

/// What the program prints for a log, of which it need not read what makes it
/// too long.
fn printed(log: &[u8]) -> String {
    CHECKER.printed_by(|input| write_while_read(input, log))
}

#[test]
fn right_logs() {
    let mut generator = SplitMix64::new(0x9406);
    for state in [STARTING_WORDS, ZERO_STATE, generator.next_state()] {
        for rounds in 1..=12 {
            let line = format!("agrees, {rounds} rounds\n");
            let log = log_of(state, rounds);
            assert_eq!(check_log(&log).line(), line);
            assert_eq!(CHECKER.printed(&log), line);
        }
    }
}

/// Every round is named: where another run begins behind it, and where a bit of
/// the state that it leads to is changed.
#[test]
fn every_round_differs() {
    let mut generator = SplitMix64::new(0x9D1F);
    let other = log_of(generator.next_state(), 12);
    for rounds in [1, 2, 9, 12] {
        let log = log_of(STARTING_WORDS, rounds);
        for round in 0..rounds {
            let line = format!("round {round} differs\n");
            let two_runs = spliced(&log, &other[..log.len()], round + 1);
            assert_eq!(CHECKER.printed(&two_runs), line, "two runs");
            let mut changed = log.clone();
            let bit = generator.below(8 * STATE_BYTES);
            turn_bit(&mut changed[STATE_BYTES * (round + 1)..], bit);
            assert_eq!(CHECKER.printed(&changed), line, "bit {bit}");
        }
    }
}

/// A changed bit of the first state, and of the last one's last byte.
#[test]
fn first_and_last_bit() {
    for rounds in 1..=12 {
        let mut log = log_of(STARTING_WORDS, rounds);
        turn_bit(&mut log, 0);
        assert_eq!(CHECKER.printed(&log), "round 0 differs\n");
        turn_bit(&mut log, 0);
        let last = 8 * log.len() - 1;
        turn_bit(&mut log, last);
        let line = format!("round {} differs\n", rounds - 1);
        assert_eq!(CHECKER.printed(&log), line);
    }
}

#[test]
fn refused_lengths() {
    let mut log = log_with(STARTING_WORDS, (0..12).chain([0]));
    log.resize(100_000, 0);
    for length in [
        0, 1, 159, 160, 161, 319, 321, 479, 481, 1_919, 2_079, 2_081, 2_082, 2_239, 2_240, 2_241,
        4_096, 65_536, 65_856, 100_000,
    ] {
        assert_eq!(printed(&log[..length]), REFUSED, "{length} bytes");
    }
}

/// One byte less or more than a right log of each length.
#[test]
fn one_byte_less_or_more() {
    let log = log_with(STARTING_WORDS, (0..12).chain([0]));
    for rounds in 1..=12 {
        let right = STATE_BYTES * (1 + rounds);
        for length in [right - 1, right + 1] {
            assert_eq!(printed(&log[..length]), REFUSED, "{length} bytes");
        }
    }
}

#[test]
fn byte_by_byte() {
    let log = stored_log();
    for length in [320, 479, 480, 2_080] {
        let log = &log[..length];
        let printed = CHECKER.printed_by(|input| write_pieces(input, log, 1));
        assert_eq!(printed, check_log(log).line(), "{length} bytes");
    }
}

#[test]
fn in_pieces() {
    let right = stored_log();
    let mut changed = right.clone();
    turn_bit(&mut changed[STATE_BYTES * 7..], 77);
    let longer = [&right[..], &[0]].concat();
    for (log, line) in [
        (&right[..], "agrees, 12 rounds\n"),
        (&changed, "round 6 differs\n"),
        (&right[..2_079], REFUSED),
        (&longer, REFUSED),
        (&right[..320], "agrees, 1 rounds\n"),
    ] {
        for length in [7, 159, 160, 161, 320, 1_024, 2_079, 2_080] {
            let printed = CHECKER.printed_by(|input| write_pieces(input, log, length));
            assert_eq!(printed, line, "{} bytes in pieces of {length}", log.len());
        }
    }
}

/// The last byte alone, or the first.
#[test]
fn one_byte_apart() {
    let log = stored_log();
    for rounds in [1, 5, 12] {
        let log = &log[..STATE_BYTES * (1 + rounds)];
        for at in [1, log.len() - 1] {
            let (first, second) = log.split_at(at);
            let printed = CHECKER.printed_by(|input| {
                write_pieces(input, first, first.len());
                write_pieces(input, second, second.len());
            });
            assert_eq!(printed, format!("agrees, {rounds} rounds\n"), "cut at {at}");
        }
    }
}

/// A file, not a pipe, on standard input.
#[test]
fn from_a_file() {
    let printed = CHECKER.printed_from(File::open(STORED).unwrap().into());
    assert_eq!(printed, "agrees, 12 rounds\n");
}

#[test]
fn empty_input() {
    assert_eq!(CHECKER.printed(&[]), REFUSED);
    assert_eq!(CHECKER.printed_from(Stdio::null()), REFUSED);
}

/// Bytes after a right log of 13 states make it too long, however many.
#[test]
fn bytes_after_the_longest_log() {
    let mut log = stored_log();
    log.push(0);
    assert_eq!(printed(&log), REFUSED);
    log.resize(10_000_000, 0);
    assert_eq!(printed(&log), REFUSED);
}

/// An input without an end: the program does not wait for one.
#[test]
fn endless_input() {
    let zeros = File::open("/dev/zero").unwrap();
    assert_eq!(CHECKER.printed_from(zeros.into()), REFUSED);
}
