//! Opening in the sealed message's own buffer (request N6), without refusals:
//! the lengths are the caller's business. Byte by byte on that one buffer; it
//! cuts and pads no blocks, and shares with `words` only how a state starts.

use super::bytes::{byte, end_block, xor_byte};
use super::{words, Variant, TAG_BYTES};
use crate::permutation::State;

/// The state, into which bytes go one after another.
#[derive(Clone)]
struct Sponge {
    state: State,
    /// The bytes of a full block.
    block: usize,
    /// The bytes of the block under way.
    at: usize,
}

impl Sponge {
    fn end_block(&mut self, frame: bool) {
        self.state = end_block(&self.state, self.at, frame);
        self.at = 0;
    }

    /// A byte more is to come: a full block was not the last one, and ends with
    /// this frame bit.
    fn make_room(&mut self, frame: bool) {
        if self.at == self.block {
            self.end_block(frame);
        }
    }

    fn take(&mut self, value: u8) {
        xor_byte(&mut self.state, self.at, value);
        self.at += 1;
    }

    /// A byte of ciphertext, which is state xor message: the message's byte, which
    /// is taken.
    fn open(&mut self, sealed: u8) -> u8 {
        let plain = byte(&self.state, self.at) ^ sealed;
        self.take(plain);
        plain
    }

    /// The same within the message, whose blocks but the last have frame bit 1.
    fn open_next(&mut self, sealed: u8) -> u8 {
        self.make_room(true);
        self.open(sealed)
    }

    /// The tag behind the last byte of the message.
    fn tag(mut self) -> [u8; TAG_BYTES] {
        self.end_block(false);
        std::array::from_fn(|j| byte(&self.state, j))
    }
}

/// Secret number and associated data are in; the message comes next. Gives the
/// secret number too.
fn ready(
    variant: Variant,
    key: &[u8],
    nonce: &[u8],
    ad1: &[u8],
    ad2: &[u8],
    sealed_secret: &[u8],
) -> (Sponge, Vec<u8>) {
    let mut sponge = Sponge {
        state: words::start(key, nonce),
        block: variant.sizes().block,
        at: 0,
    };
    let secret = sealed_secret.iter().map(|sealed| sponge.open(*sealed));
    let secret = secret.collect();
    sponge.end_block(false);

    for value in ad1.iter().chain(ad2) {
        sponge.make_room(false);
        sponge.take(*value);
    }
    sponge.end_block(true);
    (sponge, secret)
}

/// The buffer is a sealed message, at least `variant.overhead()` bytes long.
/// Where the tag agrees, the message goes to its front, and the secret number is
/// given. Where it differs there is nothing, and the buffer stays.
pub fn open(
    variant: Variant,
    key: &[u8],
    nonce: &[u8],
    ad1: &[u8],
    ad2: &[u8],
    buffer: &mut [u8],
) -> Option<Vec<u8>> {
    let before = variant.sizes().secret;
    let length = buffer.len() - variant.overhead();
    let (mut sponge, secret) = ready(variant, key, nonce, ad1, ad2, &buffer[..before]);

    // First the tag, from a sponge that is then let go.
    let mut only_tag = sponge.clone();
    for at in 0..length {
        only_tag.open_next(buffer[before + at]);
    }
    if buffer[before + length..] != only_tag.tag() {
        return None;
    }

    // A byte of ciphertext is read before anything is written to its place.
    for at in 0..length {
        buffer[at] = sponge.open_next(buffer[before + at]);
    }
    Some(secret)
}
