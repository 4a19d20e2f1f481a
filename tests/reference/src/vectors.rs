//! Test vectors of the permutation and of sealing, as text.

use std::fmt::Write;

use crate::permutation::{bits, State, STARTING_WORDS, ZERO_STATE};
use crate::random::XorShift64;
use crate::sealing::{self, Variant};

/// How many states the vectors start from.
pub const VECTOR_STATES: u64 = 14;

/// The state in which word number w = x + 4y is the w-th value made, from w = 0.
fn state_in_word_order(mut make_word: impl FnMut(usize) -> u64) -> State {
    let mut state = ZERO_STATE;
    for w in 0..20 {
        state[w % 4][w / 4] = make_word(w);
    }
    state
}

/// The starting state number k, below `VECTOR_STATES`.
pub fn vector_state(k: u64) -> State {
    let mut state = ZERO_STATE;
    match k {
        0 => {}
        1 => state = STARTING_WORDS,
        2 => state = [[u64::MAX; 5]; 4],
        3 => state[0][0] = 1,
        4 => state[3][4] = 0x8000000000000000,
        5 => {
            state = state_in_word_order(|w| match w % 2 {
                0 => 0x5555555555555555,
                _ => 0xAAAAAAAAAAAAAAAA,
            })
        }
        6..VECTOR_STATES => {
            let mut generator = XorShift64::new(k);
            state = state_in_word_order(|_| generator.next_word());
        }
        _ => panic!("there is no vector state {k}"),
    }
    state
}

/// The text of all vectors: each state after 6 and after 12 rounds, by the
/// bit-level version. A vector is a heading and five lines, one for each y,
/// with the words S[0][y] to S[3][y].
pub fn permutation_vectors() -> String {
    let mut text = String::new();
    for k in 0..VECTOR_STATES {
        for r in [6, 12] {
            let s = bits::rounds(vector_state(k), r);
            writeln!(text, "state {k} rounds {r}").unwrap();
            for y in 0..5 {
                let [a, b, c, d] = [s[0][y], s[1][y], s[2][y], s[3][y]];
                writeln!(text, "{a:016x} {b:016x} {c:016x} {d:016x}").unwrap();
            }
        }
    }
    text
}

/// The lengths of message and associated data: around one block and two, of
/// 120 and of 128 bytes.
pub const EDGES: [usize; 10] = [0, 1, 119, 120, 121, 127, 128, 129, 240, 256];

/// `count` bytes, from byte `from` on, of the run whose byte i is
/// (31 i + i div 7) mod 256.
fn cut_from_run(from: usize, count: usize) -> Vec<u8> {
    let byte = |i: usize| ((31 * i + i / 7) % 256) as u8;
    (from..from + count).map(byte).collect()
}

/// The text of the sealed messages of each variant, of every edge length of
/// message and of associated data, by the bit-level version. A line has the
/// lengths, those of associated data as two parts, and the sealed message.
pub fn sealing_vectors() -> String {
    let mut text = String::new();
    for (variant, name) in Variant::ALL.into_iter().zip(["128", "128a", "256a"]) {
        let sizes = variant.sizes();
        let key = cut_from_run(0, sizes.key);
        let nonce = cut_from_run(32, sizes.nonce);
        let secret = cut_from_run(48, sizes.secret);
        for (i, m) in EDGES.into_iter().enumerate() {
            for (j, a) in EDGES.into_iter().enumerate() {
                let ad = cut_from_run(64, a);
                let message = cut_from_run(320, m);
                let first = [0, a, a / 2, a / 3][(i + j) % 4];
                let second = a - first;
                write!(text, "{name} message {m} associated {first} + {second}: ").unwrap();
                for byte in sealing::bits::seal(variant, &key, &nonce, &secret, &ad, &message) {
                    write!(text, "{byte:02x}").unwrap();
                }
                text.push_str(" opened\n");
            }
        }
    }
    text
}
