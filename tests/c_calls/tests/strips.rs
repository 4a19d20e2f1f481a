//! A message in strips is sealed as the reference's strips seal it, call by
//! call, and as whole sealing does, however it is cut.

use c_calls::case::Case;
use c_calls::random_strips::{case_to_cut, random_cut};
use c_calls::strip_list::check_cut;
use c_calls::strips::{end, start, strip, STATE_BYTES};
use reference::random::SplitMix64;
use reference::sealing::{Variant, MAXIMUM};

const CUTS: usize = 50_000;

/// A block of ICEPOLE-128.
const BLOCK: usize = 128;

/// The places of a cut: after each of its strips.
fn places(lengths: &[usize]) -> Vec<usize> {
    let add = |sum: &mut usize, length: &usize| {
        *sum += length;
        Some(*sum)
    };
    lengths.iter().scan(0, add).collect()
}

/// What the random cuts are to have among them, and whether this one has it.
fn kinds(msg: usize, lengths: &[usize]) -> [(&'static str, bool); 9] {
    let places = places(lengths);
    let is_cut_at = |place| msg > place && places.contains(&place);
    [
        ("an empty message", msg == 0),
        ("whole blocks", msg > 0 && msg.is_multiple_of(BLOCK)),
        ("cut at 127", is_cut_at(127)),
        ("cut at 128", is_cut_at(128)),
        ("cut at 129", is_cut_at(129)),
        ("cut at 256", is_cut_at(256)),
        (
            "an empty strip inside",
            lengths.iter().rev().skip(1).any(|length| *length == 0),
        ),
        (
            "the end in a strip of its own",
            msg > 0 && lengths.last() == Some(&0),
        ),
        ("no strip at all", lengths.is_empty()),
    ]
}

#[test]
fn random_cuts() {
    let mut generator = SplitMix64::new(0x57219);
    let mut counts = [0; 9];
    for _ in 0..CUTS {
        let case = case_to_cut(&mut generator);
        let lengths = random_cut(&mut generator, case.msg.len(), 200);
        check_cut(&case, &lengths, generator.below(3));
        for (count, (_, has)) in counts.iter_mut().zip(kinds(case.msg.len(), &lengths)) {
            *count += usize::from(has);
        }
    }
    for (count, (kind, _)) in counts.iter().zip(kinds(0, &[])) {
        assert!(*count > 500, "{kind}: only {count}");
    }
}

/// Every length at or beside a whole block, cut at every one or two such places.
#[test]
fn cuts_beside_blocks() {
    let mut generator = SplitMix64::new(0x57220);
    let edges = [0, 1, 127, 128, 129, 255, 256, 257, 384];
    for msg in edges {
        let case = Case::random(&mut generator, Variant::Icepole128, 5, 7, msg);
        for first in edges.into_iter().filter(|cut| *cut <= msg) {
            check_cut(&case, &[first], 0);
            for second in edges.into_iter().filter(|cut| (first..=msg).contains(cut)) {
                check_cut(&case, &[first, second - first], 0);
                check_cut(&case, &[first, 0, second - first, msg - second], 0);
            }
        }
    }
}

#[test]
fn strips_of_one_byte() {
    let mut generator = SplitMix64::new(0x57221);
    for msg in [1, 127, 128, 129, 255, 256, 257, 1_000] {
        let case = Case::random(&mut generator, Variant::Icepole128, 9, 0, msg);
        check_cut(&case, &vec![1; msg], 0);
        // An empty strip before, between and after them.
        let lengths: Vec<usize> = [0, 1].repeat(msg).into_iter().chain([0]).collect();
        check_cut(&case, &lengths, 1);
    }
}

/// Strips of one length, for every length to two blocks and more: a strip ends
/// at every place of a block, and begins there.
#[test]
fn strips_of_every_length_to_260() {
    let mut generator = SplitMix64::new(0x57225);
    let case = Case::random(&mut generator, Variant::Icepole128, 3, 9, 1_000);
    for length in 1..=260 {
        check_cut(&case, &vec![length; 1_000 / length], 0);
    }
}

#[test]
fn empty_message() {
    let mut generator = SplitMix64::new(0x57222);
    for ad in [0, 1, 128, 300] {
        let case = Case::random(&mut generator, Variant::Icepole128, ad, ad / 2, 0);
        check_cut(&case, &[], 0);
        check_cut(&case, &[0], 0);
        check_cut(&case, &[0; 5], 3);
    }
}

#[test]
fn strips_of_a_mebibyte() {
    let mut generator = SplitMix64::new(0x57223);
    for msg in [1 << 20, (1 << 20) + 1] {
        let case = Case::random(&mut generator, Variant::Icepole128, 100, 60, msg);
        check_cut(&case, &[], 0);
        for most in [300, 10_000, 100_000, 400_000] {
            let lengths = random_cut(&mut generator, msg, most);
            check_cut(&case, &lengths, 1);
        }
        // Many strips, and a last one of the rest.
        check_cut(&case, &vec![129; msg / 129], 0);
        check_cut(&case, &vec![4_096; msg / 4_096], 0);
    }
}

/// A message of 67,108,864 bytes, the strips not all of one length; then one
/// byte more is 4.
#[test]
fn the_longest_message() {
    let mut generator = SplitMix64::new(0x57224);
    let case = Case::random(&mut generator, Variant::Icepole128, 3, 2, MAXIMUM);
    let mut sealed = vec![0; MAXIMUM + 32];
    let mut state = [0; STATE_BYTES];
    assert_eq!(start(&case.start(), &mut sealed, &mut state), 0);
    let mut at = 0;
    for msg in case.msg.chunks(1_000_001) {
        assert_eq!(strip(&mut state, msg, &mut sealed[16 + at..]), 0);
        at += msg.len();
    }
    assert_eq!(at, MAXIMUM);
    assert_eq!(strip(&mut state, &[1], &mut [0]), 4);
    assert_eq!(end(&mut state, &mut sealed[16 + at..]), 0);

    let mut whole = vec![0; MAXIMUM + 32];
    assert_eq!(case.seal(&mut whole), 0);
    assert!(sealed == whole);
}
