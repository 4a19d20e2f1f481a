//! Sealing in strips, for ICEPOLE-128 only (the scope paper, "Afterwards:
//! 128a, 256a, strips, a lister"): start, then strips of message, then the tag.

use crate::permutation::{State, ZERO_STATE};
use crate::sealing::bytes::{byte, end_block, xor_byte};
use crate::sealing::{words, Variant, MAXIMUM, TAG_BYTES};

/// The block of ICEPOLE-128.
const BLOCK: usize = 128;

/// The secret number; also what start writes.
const SECRET_BYTES: usize = 16;

/// The strip state; anybody may make one. The sponge already holds the bytes
/// of the block under way, but not its padding: a full block waits until more
/// comes, because its frame bit depends on what follows.
#[derive(Clone, Debug, PartialEq, Eq)]
pub struct StripState {
    pub sponge: State,
    /// The message bytes so far.
    pub count: u64,
    pub finished: bool,
}

/// Order: 1, 2, 3, 4, 5.
fn refusal_of_start(
    key: &[u8],
    nonce: &[u8],
    secret: &[u8],
    ad_len: usize,
    out_len: usize,
) -> Option<u32> {
    let sizes = Variant::Icepole128.sizes();
    if key.len() != sizes.key {
        Some(1)
    } else if nonce.len() != sizes.nonce {
        Some(2)
    } else if secret.len() != sizes.secret {
        Some(3)
    } else if ad_len > MAXIMUM {
        Some(4)
    } else if out_len < SECRET_BYTES {
        Some(5)
    } else {
        None
    }
}

/// Start for an output of `out_len` bytes: the state, and the sealed secret
/// number or the refusal number. The associated data is lent in two parts.
pub fn start(
    key: &[u8],
    nonce: &[u8],
    secret: &[u8],
    ad1: &[u8],
    ad2: &[u8],
    out_len: usize,
) -> (StripState, Result<Vec<u8>, u32>) {
    let ad_len = ad1.len() + ad2.len();
    if let Some(number) = refusal_of_start(key, nonce, secret, ad_len, out_len) {
        return (StripState::REFUSED, Err(number));
    }
    let mut sponge = words::start(key, nonce);
    let sealed_secret = (0..SECRET_BYTES).map(|j| byte(&sponge, j) ^ secret[j]);
    let sealed_secret = sealed_secret.collect();
    sponge = words::absorb(sponge, secret, false);

    let ad = [ad1, ad2].concat();
    let blocks = words::blocks(&ad, BLOCK);
    let (last, before) = blocks.split_last().unwrap();
    for block in before {
        sponge = words::absorb(sponge, block, false);
    }
    sponge = words::absorb(sponge, last, true);

    let state = StripState {
        sponge,
        count: 0,
        finished: false,
    };
    (state, Ok(sealed_secret))
}

impl StripState {
    /// What a start turned down returns: finished, otherwise zero.
    pub const REFUSED: StripState = StripState {
        sponge: ZERO_STATE,
        count: 0,
        finished: true,
    };

    /// Refusal 14: finished, or the count above its maximum.
    fn is_over(&self) -> bool {
        self.finished || self.count > MAXIMUM as u64
    }

    /// A strip of message for an output of `out_len` bytes: its ciphertext, or
    /// the refusal number. Order: 14, 4 (the sum), 5.
    pub fn strip(&mut self, part: &[u8], out_len: usize) -> Result<Vec<u8>, u32> {
        if self.is_over() {
            return Err(14);
        }
        if part.len() as u64 > MAXIMUM as u64 - self.count {
            return Err(4);
        }
        if out_len < part.len() {
            return Err(5);
        }
        Ok(part.iter().map(|value| self.next(*value)).collect())
    }

    /// One byte of message. A full block that waits is a message block that
    /// is not the last: frame bit 1.
    fn next(&mut self, value: u8) -> u8 {
        let at = (self.count % BLOCK as u64) as usize;
        if at == 0 && self.count > 0 {
            self.sponge = end_block(&self.sponge, BLOCK, true);
        }
        xor_byte(&mut self.sponge, at, value);
        self.count += 1;
        byte(&self.sponge, at)
    }

    /// The length of the last message block: full or shorter, and empty only
    /// when the message is.
    fn last_length(&self) -> usize {
        match self.count {
            0 => 0,
            count => ((count - 1) % BLOCK as u64) as usize + 1,
        }
    }

    /// The end, for an output of `out_len` bytes: the tag, or the refusal
    /// number. It marks the state finished, the rest stays. Order: 14, 5.
    pub fn end(&mut self, out_len: usize) -> Result<Vec<u8>, u32> {
        if self.is_over() {
            return Err(14);
        }
        if out_len < TAG_BYTES {
            return Err(5);
        }
        self.finished = true;
        let last = end_block(&self.sponge, self.last_length(), false);
        Ok((0..TAG_BYTES).map(|j| byte(&last, j)).collect())
    }
}
