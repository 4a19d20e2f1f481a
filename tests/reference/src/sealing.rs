//! Sealing and opening of whole messages (003, 2.6 to 2.11; the scope paper,
//! "Sealing and opening" and "Turned down, by example").
//!
//! Here are the three variants and the refusals. `words` seals and opens on
//! the words of the state. `bits` seals bit by bit as the paper numbers them,
//! for short messages; it shares nothing with `words` but the variants' sizes.
//! `in_place` opens byte by byte on one buffer (request N6).

pub mod bits;
pub mod bytes;
pub mod in_place;
pub mod words;

/// The tag: words 0 and 1 of the state.
pub const TAG_BYTES: usize = 16;

/// The most bytes of associated data, both parts together, and of message.
pub const MAXIMUM: usize = 67_108_864;

/// The message length that the C opening writes in front of the secret number.
pub const LENGTH_BYTES: usize = 8;

#[derive(Clone, Copy, Debug, PartialEq, Eq)]
pub enum Variant {
    Icepole128,
    Icepole128a,
    Icepole256a,
}

/// The sizes of a variant, in bytes.
#[derive(Clone, Copy, Debug, PartialEq, Eq)]
pub struct Sizes {
    pub key: usize,
    pub nonce: usize,
    pub secret: usize,
    pub block: usize,
}

impl Variant {
    pub const ALL: [Variant; 3] = [
        Variant::Icepole128,
        Variant::Icepole128a,
        Variant::Icepole256a,
    ];

    /// The table of the scope paper.
    pub fn sizes(self) -> Sizes {
        let (key, nonce, secret, block) = match self {
            Variant::Icepole128 => (16, 16, 16, 128),
            Variant::Icepole128a => (16, 12, 0, 128),
            Variant::Icepole256a => (32, 12, 0, 120),
        };
        Sizes {
            key,
            nonce,
            secret,
            block,
        }
    }

    /// What a sealed message is longer than its message: the sealed secret
    /// number and the tag.
    pub fn overhead(self) -> usize {
        self.sizes().secret + TAG_BYTES
    }

    /// What the C opening writes into its further slice.
    pub fn info_bytes(self) -> usize {
        LENGTH_BYTES + self.sizes().secret
    }
}

/// Sealing into an output of `out_len` bytes: the bytes written at its front,
/// or the refusal number, in the order 1, 2, 3, 4, 5.
pub fn seal(
    variant: Variant,
    key: &[u8],
    nonce: &[u8],
    secret: &[u8],
    ad1: &[u8],
    ad2: &[u8],
    msg: &[u8],
    out_len: usize,
) -> Result<Vec<u8>, u32> {
    let sizes = variant.sizes();
    if key.len() != sizes.key {
        return Err(1);
    }
    if nonce.len() != sizes.nonce {
        return Err(2);
    }
    if secret.len() != sizes.secret {
        return Err(3);
    }
    if ad1.len() + ad2.len() > MAXIMUM || msg.len() > MAXIMUM {
        return Err(4);
    }
    if out_len < msg.len() + variant.overhead() {
        return Err(5);
    }
    let ad = [ad1, ad2].concat();
    Ok(words::seal(variant, key, nonce, secret, &ad, msg))
}

/// What opening tests before the tag, in the order 1, 2, 4, 6, 5.
fn check_lengths(
    variant: Variant,
    key: &[u8],
    nonce: &[u8],
    ad_len: usize,
    sealed_len: usize,
    out_len: usize,
    info_len: usize,
) -> Result<(), u32> {
    let sizes = variant.sizes();
    if key.len() != sizes.key {
        return Err(1);
    }
    if nonce.len() != sizes.nonce {
        return Err(2);
    }
    if ad_len > MAXIMUM || sealed_len > MAXIMUM + variant.overhead() {
        return Err(4);
    }
    if sealed_len < variant.overhead() {
        return Err(6);
    }
    if out_len < sealed_len - variant.overhead() || info_len < variant.info_bytes() {
        return Err(5);
    }
    Ok(())
}

/// Opening into an output of `out_len` and a further slice of `info_len`
/// bytes: the message and the secret number, or the refusal number, in the
/// order 1, 2, 4, 6, 5, 7.
pub fn open(
    variant: Variant,
    key: &[u8],
    nonce: &[u8],
    ad1: &[u8],
    ad2: &[u8],
    sealed: &[u8],
    out_len: usize,
    info_len: usize,
) -> Result<(Vec<u8>, Vec<u8>), u32> {
    let (ad_len, sealed_len) = (ad1.len() + ad2.len(), sealed.len());
    check_lengths(variant, key, nonce, ad_len, sealed_len, out_len, info_len)?;
    let ad = [ad1, ad2].concat();
    words::open(variant, key, nonce, &ad, sealed).ok_or(7)
}

/// Opening in place, with a further slice of `info_len` bytes: the message's
/// length and the secret number, or the refusal number, in the same order. The
/// message goes to the front of the buffer; later bytes stay, and refused, all.
///
/// The buffer is its own output, which is long enough: 5 is for the further
/// slice alone.
pub fn open_in_place(
    variant: Variant,
    key: &[u8],
    nonce: &[u8],
    ad1: &[u8],
    ad2: &[u8],
    buffer: &mut [u8],
    info_len: usize,
) -> Result<(usize, Vec<u8>), u32> {
    let (ad_len, length) = (ad1.len() + ad2.len(), buffer.len());
    check_lengths(variant, key, nonce, ad_len, length, length, info_len)?;
    let secret = in_place::open(variant, key, nonce, ad1, ad2, buffer);
    let message_len = length - variant.overhead();
    secret.map(|secret| (message_len, secret)).ok_or(7)
}
