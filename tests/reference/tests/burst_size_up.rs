//! Sizing up a burst (request N4): file length and calls by hand, and held
//! against the plain burst, the bit-level sealing and strips.

mod help;

use help::{list_of, ROOM};
use reference::burst::plain::run;
use reference::burst::reader::front;
use reference::burst::{size_up, Entry, PlainBurst, Size, EDITION_2};
use reference::permutation::calls::{counted, Calls};
use reference::permutation::{bits, words, ZERO_STATE};
use reference::random::SplitMix64;
use reference::sealing::{self, Variant};
use reference::strips;

fn size(file_length: u64, p12: u64, p6: u64) -> Result<Size, u32> {
    Ok(Size {
        file_length,
        p12,
        p6,
    })
}

/// Header and closing seal. The closing seal is one P12, and P6 after the site
/// mark, after the 40 bytes of the header, and after the empty message.
const EMPTY: (u64, u64, u64) = (40 + 32, 1, 3);

#[test]
fn nothing_kept() {
    let (file_length, p12, p6) = EMPTY;
    for taken in 0..=60 {
        assert_eq!(size_up(&vec![0; taken]), size(file_length, p12, p6));
    }
}

/// A record has P6 after the stamp, after the 12 bytes of its entry, and after
/// each block of the picture. With it come 12 bytes of index, and the closing
/// seal still has one block of header and index.
#[test]
fn one_picture() {
    for (length, blocks) in [
        (1, 1),
        (127, 1),
        (128, 1),
        (129, 2),
        (255, 2),
        (256, 2),
        (257, 3),
        (65_535, 512),
        (65_536, 512),
        (65_537, 513),
        (1_048_448, 8_191),
        (1_048_449, 8_192),
        (1_048_575, 8_192),
        (1_048_576, 8_192),
    ] {
        let expected = size(72 + length + 32 + 12, 1 + 1, 3 + 2 + blocks);
        assert_eq!(size_up(&[length]), expected, "{length}");
        let among_drops = size_up(&[0, 0, length, 0]);
        assert_eq!(among_drops, expected, "{length} among drops");
    }
}

/// The example of the scope paper, in edition 2: drop, keep of 3 bytes, drop.
#[test]
fn example() {
    assert_eq!(size_up(&[0, 3, 0]), size(119, 2, 6));
}

/// Pictures of one block. The closing seal covers 40 + 12 kept bytes: 124 with 7
/// kept and 136 with 8, but exactly 256 with 18 and 640 with 50.
#[test]
fn header_and_index_around_blocks() {
    for (kept, blocks) in [
        (0, 1),
        (1, 1),
        (7, 1),
        (8, 2),
        (18, 2),
        (19, 3),
        (28, 3),
        (29, 4),
        (39, 4),
        (40, 5),
        (50, 5),
        (51, 6),
        (60, 6),
    ] {
        let expected = size(72 + 45 * kept, 1 + kept, 3 * kept + 2 + blocks);
        let mut lengths = vec![1; kept as usize];
        assert_eq!(size_up(&lengths), expected, "{kept} kept");
        lengths.resize(60, 0);
        lengths.rotate_right(kept as usize / 2);
        assert_eq!(size_up(&lengths), expected, "{kept} kept of 60");
    }
}

/// 3 + 4 + 3 P6 of records, and 3 of the closing seal.
#[test]
fn pictures_of_different_lengths() {
    let expected = size(72 + 128 + 129 + 1 + 3 * 44, 4, 13);
    assert_eq!(size_up(&[128, 0, 129, 1]), expected);
    assert_eq!(size_up(&[1, 128, 129, 0]), expected);
}

#[test]
fn longest_file() {
    let expected = size(62_917_272, 61, 60 * (2 + 8_192) + 8);
    assert_eq!(size_up(&[1_048_576; 60]), expected);
}

const TOO_LONG: [u64; 7] = [
    1_048_577,
    1 << 21,
    1 << 32,
    (1 << 32) + 1,
    (1 << 32) + 1_048_576,
    1 << 63,
    u64::MAX,
];

#[test]
fn more_than_60_shots() {
    for taken in [61, 62, 120, 256, 1_000, 65_536] {
        for length in [0, 1, 1_048_576] {
            assert_eq!(size_up(&vec![length; taken]), Err(9), "{taken}");
        }
    }
}

#[test]
fn picture_too_long() {
    for length in TOO_LONG {
        for taken in [1, 2, 59, 60] {
            for at in [0, taken / 2, taken - 1] {
                let mut lengths = vec![0; taken];
                lengths[at] = length;
                assert_eq!(size_up(&lengths), Err(10), "{length} at {at} of {taken}");
            }
        }
        assert_eq!(size_up(&[length; 60]), Err(10), "{length}");
    }
}

/// 9 comes before 10, wherever the long picture is.
#[test]
fn both_refusals() {
    for length in TOO_LONG {
        for at in [0, 30, 59, 60] {
            let mut lengths = [0; 61];
            lengths[at] = length;
            assert_eq!(size_up(&lengths), Err(9), "{length} at {at}");
        }
    }
}

/// The plain burst of these lengths, all of them accepted.
fn plain(lengths: &[u64]) -> PlainBurst {
    let lengths: Vec<usize> = lengths.iter().map(|length| *length as usize).collect();
    let outcome = run(EDITION_2, &list_of(23, &lengths), ROOM);
    assert!(outcome.answers.iter().all(|answer| answer.number == 0));
    outcome.burst
}

/// Associated data and message of each seal of a file; the closing seal is last.
fn seals(burst: &PlainBurst, file: &[u8]) -> Vec<(Vec<u8>, Vec<u8>)> {
    let front = front(file).unwrap();
    let entries = front.entries.iter().zip(burst.pictures());
    let seal = |(entry, (_, picture)): (&Entry, &(_, Vec<u8>))| {
        (entry.to_bytes().to_vec(), picture.clone())
    };
    let mut seals: Vec<_> = entries.map(seal).collect();
    let index = &file[front.header.index_offset as usize..file.len() - 32];
    seals.push(([&file[..40], index].concat(), Vec::new()));
    seals
}

/// The calls that one way of sealing makes for all seals of a file.
fn calls_of(
    seals: &[(Vec<u8>, Vec<u8>)],
    seal: impl Fn(&[u8; 16], &[u8], &[u8]) -> Vec<u8>,
) -> Calls {
    let all = || {
        for (ad, msg) in seals {
            assert_eq!(seal(&[5; 16], ad, msg).len(), msg.len() + 32);
        }
    };
    counted(all).1
}

/// The plain burst, and its seals made anew: bit by bit, which cuts all blocks by
/// its own means, and in strips, which cut those of the message.
fn check_by_other_ways(lengths: &[u64]) {
    let expected = size_up(lengths).unwrap();
    let calls = Calls {
        p12: expected.p12,
        p6: expected.p6,
    };
    let burst = plain(lengths);
    let (file, of_plain) = counted(|| burst.file());
    assert_eq!(file.len() as u64, expected.file_length, "{lengths:?}");
    assert_eq!(of_plain, calls, "plain burst, {lengths:?}");

    let seals = seals(&burst, &file);
    let bit_by_bit = |key: &[u8; 16], ad: &[u8], msg: &[u8]| {
        sealing::bits::seal(Variant::Icepole128, key, key, key, ad, msg)
    };
    assert_eq!(calls_of(&seals, bit_by_bit), calls, "bits, {lengths:?}");

    let in_strips = |key: &[u8; 16], ad: &[u8], msg: &[u8]| {
        let (mut state, secret) = strips::start(key, key, key, ad, &[], 16);
        let sealed = state.strip(msg, msg.len()).unwrap();
        let tag = state.end(16).unwrap();
        [secret.unwrap(), sealed, tag].concat()
    };
    assert_eq!(calls_of(&seals, in_strips), calls, "strips, {lengths:?}");
}

#[test]
fn other_ways_of_sealing() {
    check_by_other_ways(&[]);
    check_by_other_ways(&[0; 60]);
    for length in [1, 127, 128, 129, 255, 256, 257, 1_000] {
        check_by_other_ways(&[length]);
    }
    for kept in [7, 8, 18, 19, 50, 51, 60] {
        check_by_other_ways(&vec![1; kept]);
    }
    let mut generator = SplitMix64::new(0x512E);
    for _ in 0..40 {
        let lengths: Vec<u64> = (0..generator.below(30))
            .map(|_| generator.below(300).saturating_sub(100) as u64)
            .collect();
        check_by_other_ways(&lengths);
    }
}

/// Lists with longer pictures, by the plain burst alone.
#[test]
fn random_lists() {
    let mut generator = SplitMix64::new(0x512E_0000);
    for _ in 0..1_000 {
        let longest = [3, 300, 3_000][generator.below(3)];
        let lengths: Vec<u64> = (0..generator.below(61))
            .map(|_| generator.below(longest) as u64)
            .collect();
        // Running the list seals too, so the burst is made before counting.
        let burst = plain(&lengths);
        let (file, calls) = counted(|| burst.file());
        let expected = size(file.len() as u64, calls.p12, calls.p6);
        assert_eq!(size_up(&lengths), expected, "{lengths:?}");
    }
}

/// Each call of P12 and of P6, of both versions, counts once, and what other
/// threads call counts for them.
#[test]
fn what_is_counted() {
    let (_, none) = counted(|| words::rounds(bits::rounds(ZERO_STATE, 6), 12));
    assert_eq!(none, Calls { p12: 0, p6: 0 });
    for (p12, p6) in [
        (words::p12 as fn(_) -> _, words::p6 as fn(_) -> _),
        (bits::p12, bits::p6),
    ] {
        let work = || {
            p6(p12(p6(p6(ZERO_STATE))));
            let other = std::thread::spawn(move || counted(|| p6(p12(ZERO_STATE))).1);
            other.join().unwrap()
        };
        p12(ZERO_STATE);
        let (other, calls) = counted(work);
        assert_eq!(other, Calls { p12: 1, p6: 1 });
        assert_eq!(calls, Calls { p12: 1, p6: 3 });
        let (inner, outer) = counted(|| counted(|| p6(ZERO_STATE)).1);
        assert_eq!(
            (inner, outer),
            (Calls { p12: 0, p6: 1 }, Calls { p12: 0, p6: 1 })
        );
    }
}
