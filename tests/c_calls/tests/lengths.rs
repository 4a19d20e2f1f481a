//! Lengths around the blocks, long ones, and the maximum, against the reference.

use c_calls::case::Case;
use c_calls::for_each_variant;
use reference::random::SplitMix64;
use reference::sealing::{Variant, MAXIMUM};

const SHORT: [usize; 15] = [
    0, 1, 119, 120, 121, 127, 128, 129, 239, 240, 241, 255, 256, 257, 1000,
];

const LONG: [usize; 2] = [65_536, 1_048_576];

/// The associated data is cut in two at a random place.
fn check(generator: &mut SplitMix64, variant: Variant, ad: usize, msg: usize) {
    let first = generator.below(ad + 1);
    let case = Case::random(generator, variant, first, ad - first, msg);
    case.check_both(0, 0);
    case.check_both(9, 5);
}

fn short_pairs(variant: Variant) {
    let mut generator = SplitMix64::new(0x15);
    for ad in SHORT {
        for msg in SHORT {
            check(&mut generator, variant, ad, msg);
        }
    }
}

fn long_ones(variant: Variant) {
    let mut generator = SplitMix64::new(0x10A6);
    for long in LONG {
        for short in [0, 1, 120, 128, 1000] {
            check(&mut generator, variant, short, long);
            check(&mut generator, variant, long, short);
        }
        check(&mut generator, variant, long, long);
    }
}

/// Whole words and every rest of a word, in the first two blocks and beyond.
fn every_message_to_300(variant: Variant) {
    let mut generator = SplitMix64::new(0x300);
    for msg in 0..=300 {
        check(&mut generator, variant, 12, msg);
        check(&mut generator, variant, msg, 300 - msg);
    }
}

for_each_variant!(short_pairs, long_ones, every_message_to_300);

fn check_maximum(variant: Variant, ad1: usize, ad2: usize, msg: usize) {
    let mut generator = SplitMix64::new(0x3A8);
    Case::random(&mut generator, variant, ad1, ad2, msg).check_both(3, 1);
}

#[test]
fn maximum_message_128() {
    check_maximum(Variant::Icepole128, 5, 7, MAXIMUM);
}

#[test]
fn maximum_associated_data_128() {
    let first = 12_345_679;
    check_maximum(Variant::Icepole128, first, MAXIMUM - first, 3);
}

#[test]
fn maximum_message_128a() {
    check_maximum(Variant::Icepole128a, 0, 0, MAXIMUM);
}

#[test]
fn maximum_associated_data_256a() {
    check_maximum(Variant::Icepole256a, MAXIMUM, 0, 1);
}
