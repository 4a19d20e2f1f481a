//! Sealing worked out by hand from the permutation, and the marked values of
//! the scope paper that speak of blocks.

use reference::permutation::{words as permutation, State, STARTING_WORDS, ZERO_STATE};
use reference::sealing::words::{absorb, blocks, pad, start, xor_bytes};
use reference::sealing::{bits, words, Variant};

/// The padded block as words, in word order.
fn padded_words(block: &[u8], frame: bool) -> Vec<u64> {
    let eights = pad(block, frame);
    let eights = eights.chunks(8);
    eights
        .map(|eight| u64::from_le_bytes(eight.try_into().unwrap()))
        .collect()
}

/// The words of the bit-level padded block, filled up to twenty.
fn padded_words_of_bits(variant: Variant, length: usize, frame: bool) -> Vec<u64> {
    let padded = bits::pad(variant, &vec![false; 8 * length], frame);
    let mut words = vec![0; 20];
    for (n, bit) in padded.into_iter().enumerate() {
        words[n / 64] |= u64::from(bit) << (n % 64);
    }
    words
}

fn check_padding(variant: Variant, length: usize, frame: bool, word: usize, value: u64) {
    let mut expected = vec![0; 20];
    expected[word] = value;
    assert_eq!(padded_words(&vec![0; length], frame), expected);
    assert_eq!(padded_words_of_bits(variant, length, frame), expected);
}

#[test]
fn empty_block_with_frame_0_is_word_0_xor_2() {
    for variant in Variant::ALL {
        check_padding(variant, 0, false, 0, 2);
    }
}

#[test]
fn full_128_bytes_with_frame_1_are_word_16_xor_3() {
    check_padding(Variant::Icepole128, 128, true, 16, 3);
    check_padding(Variant::Icepole128a, 128, true, 16, 3);
}

// Bits 960 and 961, the last of the 962.
#[test]
fn full_120_bytes_with_frame_1_are_word_15_xor_3() {
    check_padding(Variant::Icepole256a, 120, true, 15, 3);
}

// Bits 40 and 41.
#[test]
fn five_bytes_are_padded_in_byte_5() {
    check_padding(Variant::Icepole128, 5, true, 0, 0x0300_0000_0000);
    check_padding(Variant::Icepole128, 5, false, 0, 0x0200_0000_0000);
}

// Four bytes end at bit 32, so the padding is in byte 4.
#[test]
fn absorbing_is_padding_xor_p6() {
    let mut state = STARTING_WORDS;
    state[0][0] ^= 0x03_00CC_BBAA;
    let absorbed = absorb(STARTING_WORDS, &[0xAA, 0xBB, 0xCC, 0], true);
    assert_eq!(absorbed, permutation::p6(state));
}

#[test]
fn blocks_are_full_except_the_last() {
    let data: Vec<u8> = (0..=255).collect();
    for (length, expected) in [
        (0, vec![0]),
        (1, vec![1]),
        (127, vec![127]),
        (128, vec![128]),
        (129, vec![128, 1]),
        (255, vec![128, 127]),
        (256, vec![128, 128]),
    ] {
        let cut = blocks(&data[..length], 128);
        let lengths: Vec<usize> = cut.iter().map(|block| block.len()).collect();
        assert_eq!(lengths, expected);
        assert_eq!(cut.concat(), data[..length]);
        let of_bits = bits::cut(Variant::Icepole128, &vec![true; 8 * length]);
        let lengths: Vec<usize> = of_bits.iter().map(|block| block.len() / 8).collect();
        assert_eq!(lengths, expected);
    }
}

/// Words 0 to 5 of the starting state, xored with what is given, then P12.
fn started(given: [u64; 6]) -> State {
    let mut state = STARTING_WORDS;
    state[0][0] ^= given[0];
    state[1][0] ^= given[1];
    state[2][0] ^= given[2];
    state[3][0] ^= given[3];
    state[0][1] ^= given[4];
    state[1][1] ^= given[5];
    permutation::p12(state)
}

fn counting(from: u8, count: u8) -> Vec<u8> {
    (from..from + count).collect()
}

#[test]
fn key_and_nonce_words_of_128() {
    let expected = started([
        0x0706050403020100,
        0x0F0E0D0C0B0A0908,
        0x1716151413121110,
        0x1F1E1D1C1B1A1918,
        0,
        0,
    ]);
    assert_eq!(start(&counting(0, 16), &counting(0x10, 16)), expected);
}

// The last four bytes of the nonce are zero: the high half of word 3.
#[test]
fn key_and_nonce_words_of_128a() {
    let expected = started([
        0x0706050403020100,
        0x0F0E0D0C0B0A0908,
        0x1716151413121110,
        0x000000001B1A1918,
        0,
        0,
    ]);
    assert_eq!(start(&counting(0, 16), &counting(0x10, 12)), expected);
}

#[test]
fn key_and_nonce_words_of_256a() {
    let expected = started([
        0x0706050403020100,
        0x0F0E0D0C0B0A0908,
        0x1716151413121110,
        0x1F1E1D1C1B1A1918,
        0x2726252423222120,
        0x000000002B2A2928,
    ]);
    assert_eq!(start(&counting(0, 32), &counting(0x20, 12)), expected);
}

fn tag_of(state: &State) -> Vec<u8> {
    [state[0][0].to_le_bytes(), state[1][0].to_le_bytes()].concat()
}

type Sealing = fn(Variant, &[u8], &[u8], &[u8], &[u8], &[u8]) -> Vec<u8>;

const VERSIONS_OF_SEAL: [Sealing; 2] = [words::seal, bits::seal];

// Nothing at all under 128a: three empty blocks. The secret-number block has
// frame bit 0, the last associated block 1, the last message block 0.
#[test]
fn nothing_under_128a() {
    let mut state = start(&[0; 16], &[0; 12]);
    state[0][0] ^= 2;
    state = permutation::p6(state);
    state[0][0] ^= 3;
    state = permutation::p6(state);
    state[0][0] ^= 2;
    state = permutation::p6(state);
    for seal in VERSIONS_OF_SEAL {
        let sealed = seal(Variant::Icepole128a, &[0; 16], &[0; 12], &[], &[], &[]);
        assert_eq!(sealed, tag_of(&state));
    }
}

// Zero bytes under 128: the secret number pads at word 2, 256 associated bytes
// are two blocks with frame bits 0 and 1, and so are 130 message bytes with
// frame bits 1 and 0. Ciphertext is the state itself.
#[test]
fn zero_bytes_under_128() {
    let word = |state: &State, w: usize| state[w % 4][w / 4];
    let mut expected = Vec::new();
    let mut state = start(&[0; 16], &[0; 16]);
    for w in 0..2 {
        expected.extend(word(&state, w).to_le_bytes());
    }
    state[2][0] ^= 2;
    state = permutation::p6(state);
    state[0][4] ^= 2;
    state = permutation::p6(state);
    state[0][4] ^= 3;
    state = permutation::p6(state);
    for w in 0..16 {
        expected.extend(word(&state, w).to_le_bytes());
    }
    state[0][4] ^= 3;
    state = permutation::p6(state);
    expected.extend(&state[0][0].to_le_bytes()[..2]);
    state[0][0] ^= 0x20000;
    state = permutation::p6(state);
    expected.extend(tag_of(&state));
    for seal in VERSIONS_OF_SEAL {
        let sealed = seal(
            Variant::Icepole128,
            &[0; 16],
            &[0; 16],
            &[0; 16],
            &[0; 256],
            &[0; 130],
        );
        assert_eq!(sealed, expected);
    }
}

// Zero bytes under 256a: a full block pads at word 15.
#[test]
fn zero_bytes_under_256a() {
    let word = |state: &State, w: usize| state[w % 4][w / 4];
    let mut expected = Vec::new();
    let mut state = start(&[0; 32], &[0; 12]);
    state[0][0] ^= 2;
    state = permutation::p6(state);
    state[3][3] ^= 3;
    state = permutation::p6(state);
    for w in 0..15 {
        expected.extend(word(&state, w).to_le_bytes());
    }
    state[3][3] ^= 2;
    state = permutation::p6(state);
    expected.extend(tag_of(&state));
    for seal in VERSIONS_OF_SEAL {
        let (key, nonce, block) = ([0; 32], [0; 12], [0; 120]);
        let sealed = seal(Variant::Icepole256a, &key, &nonce, &[], &block, &block);
        assert_eq!(sealed, expected);
    }
}

#[test]
fn bytes_are_xored_low_byte_first() {
    let bytes: Vec<u8> = (1..=48).collect();
    let state = xor_bytes(ZERO_STATE, &bytes);
    assert_eq!(state[0][0], 0x0807060504030201);
    assert_eq!(state[3][0], 0x201F1E1D1C1B1A19);
    assert_eq!(state[1][1], 0x302F2E2D2C2B2A29);
    assert_eq!(state[2][1], 0);
}
