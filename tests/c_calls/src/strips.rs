//! The C calls of strips, and a strip state as the bytes that are lent to them.

use proved_calls::icepole;
use reference::permutation::ZERO_STATE;
use reference::sealing::words::{state_bytes, xor_bytes};
use reference::strips::StripState;

pub use icepole::{end, strip};

/// What a start is given beside its output and state; the associated data is
/// in two parts.
#[derive(Clone, Copy, Debug)]
pub struct Start<'a> {
    pub key: &'a [u8],
    pub nonce: &'a [u8],
    pub secret: &'a [u8],
    pub ad1: &'a [u8],
    pub ad2: &'a [u8],
}

/// The refusal number of a start, 0 when done.
pub fn start(given: &Start, out: &mut [u8], state: &mut [u8]) -> u32 {
    let Start {
        key,
        nonce,
        secret,
        ad1,
        ad2,
    } = given;
    icepole::start(key, nonce, secret, ad1, ad2, out, state)
}

/// The cipher's state; the count stands behind it.
pub const CIPHER_BYTES: usize = 160;

/// The cipher's state and the count; the byte that says finished is next.
pub const FINISHED_AT: usize = CIPHER_BYTES + 8;

/// A whole strip state.
pub const STATE_BYTES: usize = FINISHED_AT + 1;

/// The bytes that the C calls leave for this state.
pub fn bytes_of(state: &StripState) -> Vec<u8> {
    let cipher = state_bytes(&state.sponge);
    let count = state.count.to_le_bytes();
    [&cipher[..], &count, &[u8::from(state.finished)]].concat()
}

/// The state at the front of the bytes, or none where they are too few. Any
/// last byte but 0 says finished.
pub fn state_in(bytes: &[u8]) -> Option<StripState> {
    let bytes = bytes.get(..STATE_BYTES)?;
    let count = bytes[CIPHER_BYTES..FINISHED_AT].try_into().unwrap();
    Some(StripState {
        sponge: xor_bytes(ZERO_STATE, &bytes[..CIPHER_BYTES]),
        count: u64::from_le_bytes(count),
        finished: bytes[FINISHED_AT] != 0,
    })
}
