//! Round logs (request N9): the bytes, logs worked out by hand, lengths, changed
//! bits, wrong states and other constants.

use reference::permutation::{bits, words, State, STARTING_WORDS, ZERO_STATE};
use reference::random::SplitMix64;
use reference::round_log::{
    check_log, check_log_by, differing_rounds, log_by, log_of, log_with, state_bytes, state_of,
    stored_log, Round, Verdict, STATE_BYTES,
};
use Verdict::{Agrees, Differs, Refused};

const VERSIONS: [Round; 2] = [bits::round, words::round];

/// Both versions give this verdict.
fn check_verdict(log: &[u8], expected: Verdict) {
    for round in VERSIONS {
        assert_eq!(check_log_by(round, log), expected, "{} bytes", log.len());
    }
}

/// Bit z of word (x, y) is state bit 64(x + 4y) + z, and byte j covers the bits
/// from 8j on, low bit first.
#[test]
fn bytes_are_in_word_order() {
    for x in 0..4 {
        for y in 0..5 {
            for z in 0..64 {
                let mut state = ZERO_STATE;
                state[x][y] = 1 << z;
                let n = 64 * (x + 4 * y) + z;
                let mut bytes = [0; STATE_BYTES];
                bytes[n / 8] = 1 << (n % 8);
                assert_eq!(state_bytes(&state), bytes, "x {x}, y {y}, z {z}");
                assert_eq!(state_of(&bytes), state, "x {x}, y {y}, z {z}");
            }
        }
    }
}

/// The zero state stays zero until psi, which makes each 0 a 31. Constant 0 then
/// turns bits of word 0 alone.
#[test]
fn zero_state_by_hand() {
    let mut log = vec![0x00; STATE_BYTES];
    log.extend([0x08, 0x19, 0x2A, 0x3B, 0x4C, 0x5D, 0x6E, 0xFF]);
    log.resize(2 * STATE_BYTES, 0xFF);
    assert_eq!(log_of(ZERO_STATE, 1), log);
    check_verdict(&log, Agrees(1));
    // The constant left out.
    log[STATE_BYTES..].fill(0xFF);
    check_verdict(&log, Differs(0));
}

/// All ones: each slice is 31 four times. mu: 2 * 31 is 27 and 18 * 31 is 29, so
/// the slice becomes 27 + 31 = 4, then 27 + 29 = 6 three times. rho moves nothing
/// then. pi: the slice is 12, 16, 17, 3. psi: 13, 20, 21, 11.
#[test]
fn all_ones_by_hand() {
    let rows = [13, 20, 21, 11];
    let mut after = ZERO_STATE;
    for x in 0..4 {
        for y in 0..5 {
            after[x][y] = if rows[x] >> y & 1 == 1 { u64::MAX } else { 0 };
        }
    }
    after[0][0] = 0xFF6E5D4C3B2A1908;
    let log = [[0xFF; STATE_BYTES], state_bytes(&after)].concat();
    assert_eq!(log_of([[u64::MAX; 5]; 4], 1), log);
    check_verdict(&log, Agrees(1));
}

/// The states of the stored log: the starting words, the worked round, P6, P12.
#[test]
fn states_of_the_stored_log() {
    let log = stored_log();
    assert_eq!(log.len(), 2_080);
    let state = |number: usize| state_of(&log[STATE_BYTES * number..STATE_BYTES * (number + 1)]);
    assert_eq!(state(0), STARTING_WORDS);
    assert_eq!(state(1), bits::steps(STARTING_WORDS, 0)[4]);
    for number in 0..=12 {
        assert_eq!(state(number), words::rounds(STARTING_WORDS, number));
    }
    assert_eq!(state(6), bits::p6(STARTING_WORDS));
    assert_eq!(state(12), bits::p12(STARTING_WORDS));
    // S[0][0] is FF97A42D7F8E6FD4, and behind it S[1][0] begins with 35.
    let front = [0xD4, 0x6F, 0x8E, 0x7F, 0x2D, 0xA4, 0x97, 0xFF, 0x35];
    assert_eq!(log[..9], front);
    assert_eq!(log, log_of(STARTING_WORDS, 12));
    check_verdict(&log, Agrees(12));
}

/// The front of a right log agrees where it has 2 to 13 states, and is refused
/// at every other length. A fourteenth state is one too many.
#[test]
fn every_length() {
    let longest = log_with(STARTING_WORDS, (0..12).chain([0, 1]));
    for length in 0..=longest.len() {
        let expected = match (length / STATE_BYTES, length % STATE_BYTES) {
            (states @ 2..=13, 0) => Agrees(states - 1),
            _ => Refused,
        };
        assert_eq!(check_log(&longest[..length]), expected, "{length} bytes");
    }
}

#[test]
fn no_length_above_is_right() {
    for length in 2_081..20_000 {
        assert_eq!(check_log(&vec![0; length]), Refused, "{length} bytes");
    }
    for states in [256, 258, 65_536, 65_538] {
        let log = vec![0; STATE_BYTES * states];
        assert_eq!(check_log(&log), Refused, "{states} states");
    }
}

/// A bit of state i is changed. Round i - 1 leads to that state and differs. So
/// does round i, which starts from it: no two states lead to the same one. The
/// first of the two is named. State 0 is led to by no round, and the last one
/// starts none.
#[test]
fn a_changed_bit() {
    let mut generator = SplitMix64::new(0xB17);
    for rounds in 1..=12 {
        let log = log_of(generator.next_state(), rounds);
        for state in 0..=rounds {
            let bit = 8 * STATE_BYTES * state + generator.below(8 * STATE_BYTES);
            let mut changed = log.clone();
            changed[bit / 8] ^= 1 << (bit % 8);
            let differing = [state.checked_sub(1), (state < rounds).then_some(state)];
            let differing: Vec<usize> = differing.into_iter().flatten().collect();
            assert_eq!(differing_rounds(&changed), differing, "bit {bit}");
            check_verdict(&changed, Differs(state.saturating_sub(1)));
        }
    }
}

/// A round is judged by the state logged before it: behind a wrong state that the
/// rest follows from, the rounds are right again.
#[test]
fn rounds_from_a_wrong_state() {
    let mut generator = SplitMix64::new(0x3209);
    let log = stored_log();
    for state in 1..=12 {
        let rest = log_with(generator.next_state(), state..12);
        let wrong = [&log[..STATE_BYTES * state], &rest].concat();
        assert_eq!(differing_rounds(&wrong), [state - 1]);
        check_verdict(&wrong, Differs(state - 1));
    }
}

/// Up to the first round that differs, the logged states are those of the run
/// from state 0. So it is also the round in which log and run part.
#[test]
fn log_and_run_part_in_the_named_round() {
    let mut generator = SplitMix64::new(0x4D0);
    for number in 0..2_000 {
        let rounds = 1 + number % 12;
        let mut log = log_of(generator.next_state(), rounds);
        for _ in 0..generator.below(4) {
            let at = generator.below(log.len());
            log[at] ^= 1 << generator.below(8);
        }
        let run = log_of(state_of(&log[..STATE_BYTES]), rounds);
        let states = log.chunks(STATE_BYTES).zip(run.chunks(STATE_BYTES));
        let expected = match states.skip(1).position(|(logged, right)| logged != right) {
            Some(round) => Differs(round),
            None => Agrees(rounds),
        };
        assert_eq!(check_log(&log), expected, "log {number}");
    }
}

/// Constants count from 0, whatever constants the core had.
#[test]
fn other_constants() {
    let state = STARTING_WORDS;
    check_verdict(&log_with(state, 6..12), Differs(0));
    check_verdict(&log_with(state, [0; 12]), Differs(1));
    check_verdict(&log_with(state, [0, 1, 2, 4]), Differs(3));
    // P6 and P6 again, in one log.
    check_verdict(&log_with(state, (0..6).chain(0..6)), Differs(6));
    // The state before is the one after six rounds of P12.
    check_verdict(&log_of(state, 12)[6 * STATE_BYTES..], Differs(0));
}

#[test]
fn nothing_but_rounds() {
    check_verdict(&[0; 2 * STATE_BYTES], Differs(0));
    check_verdict(&[0xFF; 13 * STATE_BYTES], Differs(0));
    let log = SplitMix64::new(0x4A4D).next_bytes(7 * STATE_BYTES);
    check_verdict(&log, Differs(0));
    assert_eq!(differing_rounds(&log), [0, 1, 2, 3, 4, 5]);
}

/// Both versions make the same logs, and give the same verdict on logs with a few
/// bits changed.
#[test]
fn versions_agree() {
    let mut generator = SplitMix64::new(0xA64EE);
    let mut agreeing = 0;
    for number in 0..300 {
        let state: State = generator.next_state();
        let rounds = 1 + number % 12;
        let mut log = log_by(bits::round, state, 0..rounds);
        assert_eq!(log, log_of(state, rounds));
        for _ in 0..generator.below(3) {
            let at = generator.below(log.len());
            log[at] ^= 1 << generator.below(8);
        }
        let verdict = check_log(&log);
        agreeing += usize::from(verdict == Agrees(rounds));
        assert_eq!(check_log_by(bits::round, &log), verdict, "log {number}");
    }
    assert!((50..200).contains(&agreeing), "{agreeing} agree");
}

#[test]
fn lines() {
    assert_eq!(Agrees(1).line(), "agrees, 1 rounds\n");
    assert_eq!(Agrees(12).line(), "agrees, 12 rounds\n");
    assert_eq!(Differs(0).line(), "round 0 differs\n");
    assert_eq!(Differs(11).line(), "round 11 differs\n");
    assert_eq!(Refused.line(), "refused 19\n");
}
