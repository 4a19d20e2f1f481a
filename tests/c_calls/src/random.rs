//! One random call of sealing or opening, good or bad, held against the
//! reference.

use crate::case::Case;
use reference::random::SplitMix64;
use reference::sealing::Variant;

/// Lengths around none, the block of 256a, the block of the others, and two
/// of these.
const EDGES: [usize; 11] = [0, 1, 119, 120, 121, 127, 128, 129, 255, 256, 257];

/// One in four an edge, one in 32 up to 5,000 bytes, else up to 300.
pub(crate) fn length(generator: &mut SplitMix64) -> usize {
    match generator.below(32) {
        0 => generator.below(5_001),
        1..9 => EDGES[generator.below(EDGES.len())],
        _ => generator.below(301),
    }
}

/// A case whose lengths are right; the associated data is cut anywhere.
pub(crate) fn case_of(generator: &mut SplitMix64, variant: Variant) -> Case {
    let ad = length(generator);
    let first = generator.below(ad + 1);
    let msg = length(generator);
    Case::random(generator, variant, first, ad - first, msg)
}

/// Bytes by which a buffer is longer than needed, none in one of four cases.
pub(crate) fn spare(generator: &mut SplitMix64) -> usize {
    if generator.below(4) == 0 {
        0
    } else {
        generator.below(200)
    }
}

/// One time in ten, another length: some bytes fewer or some zeros more.
pub(crate) fn spoil_length(generator: &mut SplitMix64, bytes: &mut Vec<u8>) {
    if generator.below(10) == 0 {
        let length = match generator.below(3) {
            0 => bytes.len().saturating_sub(1),
            1 => bytes.len() + 1,
            _ => generator.below(40),
        };
        bytes.resize(length, 0);
    }
}

/// One time in six a length up to what is needed, else longer.
pub(crate) fn buffer_length(generator: &mut SplitMix64, needed: usize) -> usize {
    if generator.below(6) == 0 {
        generator.below(needed + 1)
    } else {
        needed + spare(generator)
    }
}

/// One time in five, some bytes are changed; one time in ten, the length.
fn spoil_sealed(generator: &mut SplitMix64, sealed: &mut Vec<u8>) {
    if generator.below(5) == 0 {
        for _ in 0..1 + generator.below(3) {
            let at = generator.below(sealed.len());
            sealed[at] ^= 1 + generator.below(255) as u8;
        }
    }
    spoil_length(generator, sealed);
}

/// A good case is sealed as the reference seals it, and opens again, in place too.
pub fn good_case(generator: &mut SplitMix64, variant: Variant) {
    let case = case_of(generator, variant);
    let lent = case.clone();
    let (spare_out, spare_info) = (spare(generator), spare(generator));

    let sealed = lent.reference_seal(usize::MAX).unwrap();
    let opened = lent.reference_open(&sealed, lent.msg.len(), variant.info_bytes());
    assert!(opened == Ok((lent.msg.clone(), lent.secret.clone())));

    lent.check_seals_as(&sealed, spare_out);
    lent.check_opens(&sealed, spare_out, spare_info);
    assert!(lent == case, "an input changed, {}", case.describe());
}

/// A sealing with lengths that may be wrong. Gives the number.
pub fn seal_call(generator: &mut SplitMix64, variant: Variant) -> u32 {
    let mut case = case_of(generator, variant);
    spoil_length(generator, &mut case.key);
    spoil_length(generator, &mut case.nonce);
    spoil_length(generator, &mut case.secret);
    let needed = case.msg.len() + variant.overhead();
    case.check_seal(buffer_length(generator, needed))
}

/// A case and its sealed message, which may be damaged; lengths may be wrong.
fn spoiled_case(generator: &mut SplitMix64, variant: Variant) -> (Case, Vec<u8>) {
    let mut case = case_of(generator, variant);
    let mut sealed = case.reference_seal(usize::MAX).unwrap();
    spoil_sealed(generator, &mut sealed);
    spoil_length(generator, &mut case.key);
    spoil_length(generator, &mut case.nonce);
    spoil_length(generator, &mut case.ad2);
    (case, sealed)
}

/// An opening of a sealed message that may be damaged, with lengths that may
/// be wrong. Gives the number.
pub fn open_call(generator: &mut SplitMix64, variant: Variant) -> u32 {
    let (case, sealed) = spoiled_case(generator, variant);
    let implied = sealed.len().saturating_sub(variant.overhead());
    let out_len = buffer_length(generator, implied);
    let info_len = buffer_length(generator, variant.info_bytes());
    case.check_open(&sealed, out_len, info_len)
}

/// The same in place.
pub fn open_in_place_call(generator: &mut SplitMix64, variant: Variant) -> u32 {
    let (case, sealed) = spoiled_case(generator, variant);
    let info_len = buffer_length(generator, variant.info_bytes());
    case.check_open_in_place(&sealed, info_len).0
}
