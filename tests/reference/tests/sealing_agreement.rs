//! The bit-level and the word-level sealing agree, and opening undoes them.

use reference::random::SplitMix64;
use reference::sealing::{bits, words, Variant};

/// One input of sealing, all lengths right.
struct Input {
    variant: Variant,
    key: Vec<u8>,
    nonce: Vec<u8>,
    secret: Vec<u8>,
    ad: Vec<u8>,
    msg: Vec<u8>,
}

fn input(generator: &mut SplitMix64, variant: Variant, ad: usize, msg: usize) -> Input {
    let sizes = variant.sizes();
    Input {
        variant,
        key: generator.next_bytes(sizes.key),
        nonce: generator.next_bytes(sizes.nonce),
        secret: generator.next_bytes(sizes.secret),
        ad: generator.next_bytes(ad),
        msg: generator.next_bytes(msg),
    }
}

fn check(i: &Input) {
    let what = || format!("{:?}, ad {}, msg {}", i.variant, i.ad.len(), i.msg.len());
    let of_words = words::seal(i.variant, &i.key, &i.nonce, &i.secret, &i.ad, &i.msg);
    let of_bits = bits::seal(i.variant, &i.key, &i.nonce, &i.secret, &i.ad, &i.msg);
    assert_eq!(of_words, of_bits, "{}", what());
    let opened = words::open(i.variant, &i.key, &i.nonce, &i.ad, &of_bits);
    let expected = Some((i.msg.clone(), i.secret.clone()));
    assert_eq!(opened, expected, "{}", what());
}

/// Lengths around one and two blocks, of both block sizes.
const EDGES: [usize; 12] = [0, 1, 8, 119, 120, 121, 127, 128, 129, 240, 256, 257];

fn edge_lengths_agree(variant: Variant) {
    let mut generator = SplitMix64::new(0x5EA1);
    for ad in EDGES {
        for msg in EDGES {
            check(&input(&mut generator, variant, ad, msg));
        }
    }
}

#[test]
fn edge_lengths_agree_128() {
    edge_lengths_agree(Variant::Icepole128);
}

#[test]
fn edge_lengths_agree_128a() {
    edge_lengths_agree(Variant::Icepole128a);
}

#[test]
fn edge_lengths_agree_256a() {
    edge_lengths_agree(Variant::Icepole256a);
}

/// Every length up to 260, once for the message and once for the associated data.
#[test]
fn every_short_length_agrees() {
    let mut generator = SplitMix64::new(0x260);
    for variant in Variant::ALL {
        for length in 0..=260 {
            check(&input(&mut generator, variant, 3, length));
            check(&input(&mut generator, variant, length, 3));
        }
    }
}

#[test]
fn random_lengths_agree() {
    let mut generator = SplitMix64::new(0xAD);
    for number in 0..300 {
        let variant = Variant::ALL[number % 3];
        let (ad, msg) = (generator.below(500), generator.below(500));
        check(&input(&mut generator, variant, ad, msg));
    }
}
