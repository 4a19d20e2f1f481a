//! Sealing and opening on the words of the state, without refusals: the
//! lengths are the caller's business. The quick version, for long messages.

use super::{Variant, TAG_BYTES};
use crate::permutation::{words, State, STARTING_WORDS};

/// The bytes of a whole state.
const STATE_BYTES: usize = 160;

/// The bytes of the state: words in the order w = x + 4y, low byte first.
pub fn state_bytes(state: &State) -> [u8; STATE_BYTES] {
    let mut bytes = [0; STATE_BYTES];
    for (w, eight) in bytes.chunks_exact_mut(8).enumerate() {
        eight.copy_from_slice(&state[w % 4][w / 4].to_le_bytes());
    }
    bytes
}

/// The state with bytes xored into its front; they fill whole words.
pub fn xor_bytes(mut state: State, bytes: &[u8]) -> State {
    assert_eq!(bytes.len() % 8, 0);
    for (w, eight) in bytes.chunks_exact(8).enumerate() {
        state[w % 4][w / 4] ^= u64::from_le_bytes(eight.try_into().unwrap());
    }
    state
}

/// Key and nonce words are xored into the words from 0 on, then P12. A 12-byte
/// nonce gets four zero bytes at its end.
pub fn start(key: &[u8], nonce: &[u8]) -> State {
    let mut padded_nonce = [0; 16];
    padded_nonce[..nonce.len()].copy_from_slice(nonce);
    let introduced = [key, &padded_nonce].concat();
    words::p12(xor_bytes(STARTING_WORDS, &introduced))
}

/// Blocks are full except the last; empty data is one empty block; a positive
/// multiple of the block size gets no extra block.
pub fn blocks(data: &[u8], block_bytes: usize) -> Vec<&[u8]> {
    if data.is_empty() {
        vec![data]
    } else {
        data.chunks(block_bytes).collect()
    }
}

/// A block of L bytes is padded by a frame bit at bit 8L and a 1 at bit 8L + 1.
pub fn pad(block: &[u8], frame: bool) -> [u8; STATE_BYTES] {
    let mut padded = [0; STATE_BYTES];
    padded[..block.len()].copy_from_slice(block);
    padded[block.len()] = u8::from(frame) | 1 << 1;
    padded
}

/// A block is xored in after padding, and followed by P6.
pub fn absorb(state: State, block: &[u8], frame: bool) -> State {
    words::p6(xor_bytes(state, &pad(block, frame)))
}

/// State xor data, for a block of data: ciphertext from message and back.
fn xored(state: &State, block: &[u8]) -> Vec<u8> {
    let bytes = state_bytes(state);
    block.iter().zip(bytes).map(|(a, b)| a ^ b).collect()
}

/// The associated blocks; the frame bit is 1 for the last of them.
fn absorb_associated(variant: Variant, mut state: State, ad: &[u8]) -> State {
    let blocks = blocks(ad, variant.sizes().block);
    let last = blocks.len() - 1;
    for (i, block) in blocks.into_iter().enumerate() {
        state = absorb(state, block, i == last);
    }
    state
}

/// The tag: words 0 and 1.
fn tag(state: &State) -> [u8; TAG_BYTES] {
    state_bytes(state)[..TAG_BYTES].try_into().unwrap()
}

/// The sealed secret number, the ciphertext, the tag.
pub fn seal(
    variant: Variant,
    key: &[u8],
    nonce: &[u8],
    secret: &[u8],
    ad: &[u8],
    msg: &[u8],
) -> Vec<u8> {
    let mut sealed = Vec::with_capacity(msg.len() + variant.overhead());
    let mut state = start(key, nonce);

    sealed.extend(xored(&state, secret));
    state = absorb(state, secret, false);

    state = absorb_associated(variant, state, ad);

    let blocks = blocks(msg, variant.sizes().block);
    let last = blocks.len() - 1;
    for (i, block) in blocks.into_iter().enumerate() {
        sealed.extend(xored(&state, block));
        state = absorb(state, block, i != last);
    }

    sealed.extend(tag(&state));
    sealed
}

/// The message and the secret number, or nothing when the tag differs. The
/// sealed message is at least `variant.overhead()` bytes long.
pub fn open(
    variant: Variant,
    key: &[u8],
    nonce: &[u8],
    ad: &[u8],
    sealed: &[u8],
) -> Option<(Vec<u8>, Vec<u8>)> {
    let (sealed_secret, rest) = sealed.split_at(variant.sizes().secret);
    let (ciphertext, received_tag) = rest.split_at(rest.len() - TAG_BYTES);
    let mut message = Vec::with_capacity(ciphertext.len());
    let mut state = start(key, nonce);

    let secret = xored(&state, sealed_secret);
    state = absorb(state, &secret, false);

    state = absorb_associated(variant, state, ad);

    let blocks = blocks(ciphertext, variant.sizes().block);
    let last = blocks.len() - 1;
    for (i, block) in blocks.into_iter().enumerate() {
        let plain = xored(&state, block);
        state = absorb(state, &plain, i != last);
        message.extend(plain);
    }

    if received_tag == tag(&state) {
        Some((message, secret))
    } else {
        None
    }
}
