//! Changes of logs.

use reference::round_log::STATE_BYTES;

/// Turns this bit of the log, counted from the low bit of its first byte.
pub fn turn_bit(log: &mut [u8], bit: usize) {
    log[bit / 8] ^= 1 << (bit % 8);
}

/// The first `states` states of one log, and those of the other from there on.
pub fn spliced(first: &[u8], second: &[u8], states: usize) -> Vec<u8> {
    let at = STATE_BYTES * states;
    [&first[..at], &second[at..]].concat()
}
