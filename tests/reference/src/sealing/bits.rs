//! Sealing bit by bit, as 003, 2.6 to 2.11 has it: the state is the vector v
//! of 2.3, blocks are vectors of bits. Slow, for short messages. No refusals.

use super::Variant;
use crate::permutation::{bits, State, STARTING_WORDS, ZERO_STATE};

/// The vector v of 1280 bits: v[64(x + 4y) + z] = S[x][y][z] (003, 2.3).
type Vector = Vec<bool>;

fn vector_of(state: &State) -> Vector {
    let mut v = vec![false; 1280];
    for x in 0..4 {
        for y in 0..5 {
            for z in 0..64 {
                v[64 * (x + 4 * y) + z] = bits::bit(state, x, y, z) == 1;
            }
        }
    }
    v
}

fn state_of(v: &Vector) -> State {
    let mut state = ZERO_STATE;
    for x in 0..4 {
        for y in 0..5 {
            for z in 0..64 {
                state[x][y] |= u64::from(v[64 * (x + 4 * y) + z]) << z;
            }
        }
    }
    state
}

/// Byte j is bits 8j to 8j + 7, low bit first.
fn bits_of(bytes: &[u8]) -> Vec<bool> {
    let bit = |n: usize| (bytes[n / 8] >> (n % 8)) & 1 == 1;
    (0..8 * bytes.len()).map(bit).collect()
}

/// The reverse of `bits_of`; the bits are whole bytes.
fn bytes_of(bits: &[bool]) -> Vec<u8> {
    let mut bytes = vec![0; bits.len() / 8];
    for (n, bit) in bits.iter().enumerate() {
        if *bit {
            bytes[n / 8] |= 1 << (n % 8);
        }
    }
    bytes
}

/// P6 or P12 on the vector.
fn permute(v: &Vector, permutation: fn(State) -> State) -> Vector {
    vector_of(&permutation(state_of(v)))
}

/// S_[n] := S_[n] xor the n bits.
fn xor_front(v: &mut Vector, bits: &[bool]) {
    for (n, bit) in bits.iter().enumerate() {
        v[n] ^= bit;
    }
}

/// S[x][y] := S[x][y] xor a word, given as its 64 bits.
fn xor_word(v: &mut Vector, x: usize, y: usize, word: &[bool]) {
    for z in 0..64 {
        v[64 * (x + 4 * y) + z] ^= word[z];
    }
}

/// The padded length of a block in bits (003, 2.7 and 2.11).
fn padded_length(variant: Variant) -> usize {
    match variant {
        Variant::Icepole128 | Variant::Icepole128a => 1026,
        Variant::Icepole256a => 962,
    }
}

/// A block is appended with the frame bit, with a 1, and with 0s (003, 2.7).
pub fn pad(variant: Variant, block: &[bool], frame_bit: bool) -> Vec<bool> {
    let mut padded = block.to_vec();
    padded.push(frame_bit);
    padded.push(true);
    while padded.len() < padded_length(variant) {
        padded.push(false);
    }
    assert_eq!(padded.len(), padded_length(variant));
    padded
}

/// Where the words of key and padded nonce go, x and y (003, 2.6 and 2.11).
fn places(variant: Variant) -> &'static [(usize, usize)] {
    match variant {
        Variant::Icepole128 | Variant::Icepole128a => &[(0, 0), (1, 0), (2, 0), (3, 0)],
        Variant::Icepole256a => &[(0, 0), (1, 0), (2, 0), (3, 0), (0, 1), (1, 1)],
    }
}

/// The initialization phase (003, 2.6, 2.10 and 2.11).
fn initial(variant: Variant, key: &[u8], nonce: &[u8]) -> Vector {
    let mut nonce_bits = bits_of(nonce);
    while nonce_bits.len() < 128 {
        nonce_bits.push(false);
    }
    let introduced = [bits_of(key), nonce_bits].concat();
    let places = places(variant);
    assert_eq!(introduced.len(), 64 * places.len());
    let mut v = vector_of(&STARTING_WORDS);
    for (number, (x, y)) in places.iter().enumerate() {
        xor_word(&mut v, *x, *y, &introduced[64 * number..64 * number + 64]);
    }
    permute(&v, bits::p12)
}

/// Blocks of bits: while more than a full block is left, a full block is cut
/// off; what is left then, even nothing, is the last block.
pub fn cut(variant: Variant, data: &[bool]) -> Vec<Vec<bool>> {
    let full = padded_length(variant) - 2;
    let mut rest = data.to_vec();
    let mut blocks = Vec::new();
    while rest.len() > full {
        let after = rest.split_off(full);
        blocks.push(rest);
        rest = after;
    }
    blocks.push(rest);
    blocks
}

/// The sealed secret number, the ciphertext, the tag.
pub fn seal(
    variant: Variant,
    key: &[u8],
    nonce: &[u8],
    secret: &[u8],
    ad: &[u8],
    msg: &[u8],
) -> Vec<u8> {
    let mut s = initial(variant, key, nonce);
    let mut sealed: Vec<bool> = Vec::new();

    let process = |s: &mut Vector, block: &[bool], frame_bit: bool| {
        xor_front(s, &pad(variant, block, frame_bit));
        *s = permute(s, bits::p6);
    };

    let secret_block = bits_of(secret);
    for (n, bit) in secret_block.iter().enumerate() {
        sealed.push(s[n] ^ bit);
    }
    process(&mut s, &secret_block, false);

    let mut remaining = cut(variant, &bits_of(ad));
    while !remaining.is_empty() {
        let block = remaining.remove(0);
        let is_last = remaining.is_empty();
        process(&mut s, &block, is_last);
    }

    let mut remaining = cut(variant, &bits_of(msg));
    while !remaining.is_empty() {
        let block = remaining.remove(0);
        let is_last = remaining.is_empty();
        for (n, bit) in block.iter().enumerate() {
            sealed.push(s[n] ^ bit);
        }
        process(&mut s, &block, !is_last);
    }

    // T_0 is S[0][0] and T_1 is S[1][0], bits 0 to 127 of v.
    sealed.extend(&s[..128]);
    bytes_of(&sealed)
}
