//! Whatever is changed is refused, and nothing is written then; the boundary
//! between the two parts of the associated data is not under the tag.

use c_calls::case::Case;
use c_calls::for_each_variant;
use c_calls::lent::Lent;
use reference::random::SplitMix64;
use reference::sealing::Variant;

/// A short message, none, and one of more than a block.
const MESSAGES: [usize; 3] = [5, 0, 130];

/// A case with associated data of 3 and 6 bytes, and its sealed message.
fn sealed_case(variant: Variant, msg: usize) -> (Case, Vec<u8>) {
    let mut generator = SplitMix64::new(0xC8A46E);
    let case = Case::random(&mut generator, variant, 3, 6, msg);
    let sealed = case.reference_seal(1000).unwrap();
    case.check_opens(&sealed, 5, 3);
    (case, sealed)
}

/// Every change of one bit.
fn single_bit_changes(bytes: &[u8]) -> Vec<Vec<u8>> {
    let mut all = Vec::new();
    for number in 0..8 * bytes.len() {
        let mut changed = bytes.to_vec();
        changed[number / 8] ^= 1 << (number % 8);
        all.push(changed);
    }
    all
}

fn every_bit_of_the_sealed_message(variant: Variant) {
    for msg in MESSAGES {
        let (case, sealed) = sealed_case(variant, msg);
        for (number, changed) in single_bit_changes(&sealed).into_iter().enumerate() {
            case.check_refused(&changed, 7, &format!("sealed bit {number}"));
        }
    }
}

fn every_bit_of_key_nonce_and_associated_data(variant: Variant) {
    type Field = fn(&mut Case) -> &mut Vec<u8>;
    let fields: [(&str, Field); 4] = [
        ("key", |case| &mut case.key),
        ("nonce", |case| &mut case.nonce),
        ("first part", |case| &mut case.ad1),
        ("second part", |case| &mut case.ad2),
    ];
    for msg in MESSAGES {
        let (case, sealed) = sealed_case(variant, msg);
        for (name, field) in fields {
            let mut other = case.clone();
            let bytes = field(&mut other).clone();
            assert!(!bytes.is_empty());
            for (number, changed) in single_bit_changes(&bytes).into_iter().enumerate() {
                *field(&mut other) = changed;
                other.check_refused(&sealed, 7, &format!("{name} bit {number}"));
            }
        }
    }
}

fn every_boundary_between_the_parts_opens(variant: Variant) {
    let (case, sealed) = sealed_case(variant, 5);
    let joined = [case.ad1.clone(), case.ad2.clone()].concat();
    for first in 0..=joined.len() {
        let mut moved = case.clone();
        moved.ad1 = joined[..first].to_vec();
        moved.ad2 = joined[first..].to_vec();
        moved.check_opens(&sealed, 5, 3);
    }
}

fn swapped_parts_are_refused(variant: Variant) {
    let (case, sealed) = sealed_case(variant, 5);
    let mut swapped = case.clone();
    std::mem::swap(&mut swapped.ad1, &mut swapped.ad2);
    swapped.check_refused(&sealed, 7, "swapped parts");

    // One part alone is not their joining either.
    let mut one = case.clone();
    one.ad2.clear();
    one.check_refused(&sealed, 7, "second part left out");
    let mut one = case.clone();
    one.ad1.clear();
    one.check_refused(&sealed, 7, "first part left out");
}

/// Every shorter front of the sealed message: 6 below the least length, else 7.
fn every_shorter_front_is_refused(variant: Variant) {
    for msg in MESSAGES {
        let (case, sealed) = sealed_case(variant, msg);
        for length in 0..sealed.len() {
            let expected = if length < variant.overhead() { 6 } else { 7 };
            case.check_refused(&sealed[..length], expected, &format!("front {length}"));
        }
    }
}

fn one_byte_less_or_more_is_refused(variant: Variant) {
    for msg in MESSAGES {
        let (case, sealed) = sealed_case(variant, msg);
        let expected = if msg == 0 { 6 } else { 7 };
        case.check_refused(&sealed[..sealed.len() - 1], expected, "last byte left out");
        case.check_refused(&sealed[1..], expected, "first byte left out");

        for byte in [0, 1, 0x80, 0xFF] {
            let longer = [&sealed[..], &[byte]].concat();
            case.check_refused(&longer, 7, "a byte after it");
            let longer = [&[byte], &sealed[..]].concat();
            case.check_refused(&longer, 7, "a byte before it");

            // An output of the message's length is now too short.
            let (mut out, mut info) = (Lent::new(msg), Lent::new(variant.info_bytes()));
            assert_eq!(case.open(&longer, out.slice(), info.slice()), 5);
            out.check_untouched(&|| case.describe());
            info.check_untouched(&|| case.describe());
        }
    }
}

/// What one variant sealed, the others do not open; key and nonce are cut or
/// filled up to their lengths.
fn another_variant_refuses(variant: Variant) {
    let (case, sealed) = sealed_case(variant, 40);
    for other in Variant::ALL {
        let mut moved = case.clone();
        moved.variant = other;
        moved.key.resize(other.sizes().key, 0);
        moved.nonce.resize(other.sizes().nonce, 0);
        if other != variant {
            moved.check_refused(&sealed, 7, "another variant");
        }
    }
}

for_each_variant!(
    every_bit_of_the_sealed_message,
    every_bit_of_key_nonce_and_associated_data,
    every_boundary_between_the_parts_opens,
    swapped_parts_are_refused,
    every_shorter_front_is_refused,
    one_byte_less_or_more_is_refused,
    another_variant_refuses,
);
