//! burst_size_up (request N4): by hand, against the reference, which seals and
//! counts, against sums, and against what burst_replay then uses.

use std::collections::BTreeMap;
use std::ffi::{c_int, c_void};
use std::ptr::null_mut;

use burst_calls::random_list::one_of;
use burst_calls::random_size::{random_lengths, EDGES, LONGEST, TOO_LONG};
use burst_calls::sizing::{check_answer, check_both, check_size, recorded};
use reference::burst::Size;
use reference::random::SplitMix64;

fn size(file_length: u64, p12: u64, p6: u64) -> Size {
    Size {
        file_length,
        p12,
        p6,
    }
}

/// Header and closing seal: P12 once, P6 after the site mark, after the block
/// of the header, and after the empty message.
const EMPTY: Size = Size {
    file_length: 72,
    p12: 1,
    p6: 3,
};

/// A record is 32 bytes longer than its picture and has 12 bytes of index; P12
/// once, P6 after the stamp, after the entry, and after each block of the
/// picture. 40 + 12 kept bytes of header and index are one block up to 7 kept,
/// two from 8 to 18, five from 40 to 50 and six from 51 on.
#[test]
fn by_hand() {
    for (lengths, expected) in [
        (vec![], EMPTY),
        (vec![0], EMPTY),
        (vec![0; 60], EMPTY),
        (vec![0, 3, 0], size(119, 2, 6)),
        (vec![1], size(117, 2, 6)),
        (vec![127], size(243, 2, 6)),
        (vec![128], size(244, 2, 6)),
        (vec![129], size(245, 2, 7)),
        (vec![128, 0, 129, 1], size(462, 4, 13)),
        (vec![1; 7], size(387, 8, 24)),
        (vec![1; 8], size(432, 9, 28)),
        (vec![1; 18], size(882, 19, 58)),
        (vec![1; 19], size(927, 20, 62)),
        (vec![1; 50], size(2_322, 51, 157)),
        (vec![1; 51], size(2_367, 52, 161)),
        (vec![1; 60], size(2_772, 61, 188)),
        (vec![65_535], size(65_651, 2, 517)),
        (vec![65_536], size(65_652, 2, 517)),
        (vec![65_537], size(65_653, 2, 518)),
        (vec![LONGEST], size(1_048_692, 2, 8_197)),
        (vec![LONGEST; 60], size(62_917_272, 61, 491_648)),
    ] {
        check_both(&lengths, Ok(expected), &|| "by hand".into());
    }
}

/// An empty list may stand anywhere.
#[test]
fn empty_list_of_no_memory() {
    assert_eq!(burst_calls::size_up(&[]), (0, EMPTY));
}

/// Blocks of 128 bytes, begun ones too; empty data is one block.
fn blocks(bytes: u64) -> u64 {
    bytes.max(1).div_ceil(128)
}

/// The size of a burst that is not refused, by sums: the third opinion, for
/// lists that the reference would be long about.
fn size_by_sums(lengths: &[u64]) -> Size {
    let kept = lengths.iter().filter(|length| **length > 0);
    let count = kept.clone().count() as u64;
    let stamp = 1;
    let record = |length: &u64| stamp + blocks(12) + blocks(*length);
    let closing = stamp + blocks(40 + 12 * count) + blocks(0);
    let bytes: u64 = lengths.iter().sum();
    let p6 = kept.map(record).sum::<u64>() + closing;
    size(72 + 44 * count + bytes, 1 + count, p6)
}

/// The call gives the reference's answer, and sums give it too.
fn check_sized(lengths: &[u64], what: &dyn Fn() -> String) -> Size {
    let sized = check_size(lengths, what).unwrap();
    assert_eq!(size_by_sums(lengths), sized, "sums, {}", what());
    sized
}

/// Each edge alone, in pairs and, but for the longer ones, in threes.
#[test]
fn edges() {
    let what = || "edges".into();
    for first in EDGES {
        check_sized(&[first], &what);
        for second in EDGES {
            check_sized(&[first, second], &what);
        }
    }
    let short = &EDGES[..8];
    for first in short {
        for second in short {
            for third in short {
                check_sized(&[*first, *second, *third], &what);
            }
        }
    }
}

/// Every length that a picture can have, alone.
#[test]
fn every_length() {
    for length in 1..=LONGEST {
        let expected = size(116 + length, 2, 5 + length.div_ceil(128));
        check_answer(&[length], Ok(expected), &|| "alone".into());
    }
}

/// Every count of kept pictures, without drops, with drops before, after and
/// between, and with as many as there is room for.
#[test]
fn every_count_of_kept() {
    for kept in 0..=60 {
        let what = || format!("{kept} kept");
        let pictures: Vec<u64> = (0..kept).map(|i| EDGES[1 + i % 7]).collect();
        let plain = check_sized(&pictures, &what);
        let drops = vec![0; 60 - kept];
        let before = [&drops[..], &pictures].concat();
        let after = [&pictures[..], &drops].concat();
        // A drop after each picture, while there is room for it.
        let mut between = Vec::new();
        for (i, picture) in pictures.iter().enumerate() {
            between.push(*picture);
            between.extend(drops.get(i));
        }
        let mut lists = vec![before, after, between];
        if kept < 60 {
            let one = |at: usize| {
                let mut lengths = pictures.clone();
                lengths.insert(at, 0);
                lengths
            };
            lists.extend([one(0), one(kept / 2), one(kept)]);
        }
        for lengths in lists {
            assert_eq!(check_sized(&lengths, &what), plain, "{lengths:?}");
        }
    }
}

#[test]
fn counts_of_shots() {
    let what = || "count".into();
    for length in [0, 1, 128, LONGEST] {
        for count in [0, 1, 59, 60] {
            let lengths = vec![length; count];
            check_answer(&lengths, Ok(size_by_sums(&lengths)), &what);
        }
        for count in [61, 62, 63, 64, 120, 256, 300, 1_000, 65_536, 65_540] {
            check_both(&vec![length; count], Err(9), &what);
        }
    }
}

/// 2 to the 32nd.
const FAR: usize = 1 << 32;

/// Zeros that the system has no memory for until they are read: 2 to the 32nd
/// numbers and a page more.
fn many_zeros() -> &'static [u64] {
    extern "C" {
        fn mmap(
            address: *mut c_void,
            length: usize,
            protection: c_int,
            flags: c_int,
            file: c_int,
            offset: i64,
        ) -> *mut c_void;
    }
    const READ: c_int = 1;
    const PRIVATE: c_int = 0x02;
    const ANONYMOUS: c_int = 0x20;
    let count = FAR + 512;
    // SAFETY: a mapping of its own, of zeros that nobody can write and that
    // stay until the process ends, from the start of a page.
    unsafe {
        let zeros = mmap(null_mut(), 8 * count, READ, PRIVATE | ANONYMOUS, -1, 0);
        assert_ne!(zeros as isize, -1, "no address space for 34 GB");
        std::slice::from_raw_parts(zeros as *const u64, count)
    }
}

/// The low 8, 16 or 32 bits of these counts are 0 to 60.
#[test]
fn counts_whose_low_bits_are_in_range() {
    let zeros = many_zeros();
    for far in [1 << 8, 1 << 16, 1 << 24, 1 << 31, FAR] {
        for more in [0, 1, 5, 59, 60] {
            let given = burst_calls::size_up(&zeros[..far + more]);
            assert_eq!(given, (9, Size::default()), "{far} + {more}");
        }
    }
}

/// The longest picture passes, wherever it is; one byte more does not.
#[test]
fn picture_too_long() {
    let what = || "too long".into();
    for count in [1, 2, 3, 8, 59, 60] {
        for at in 0..count {
            for around in [0, 1, 300] {
                let mut lengths = vec![around; count];
                lengths[at] = LONGEST;
                check_answer(&lengths, Ok(size_by_sums(&lengths)), &what);
                for length in TOO_LONG {
                    lengths[at] = length;
                    check_both(&lengths, Err(10), &what);
                }
            }
        }
    }
    for length in TOO_LONG {
        check_both(&[length; 60], Err(10), &what);
        check_both(&[1, length, 2, length], Err(10), &what);
    }
}

/// The sum of lengths may pass 64 bits, or come back into range: each is
/// judged by itself.
#[test]
fn lengths_whose_sum_wraps() {
    let what = || "wraps".into();
    check_both(&[u64::MAX, 1], Err(10), &what);
    check_both(&[1 << 63, 1 << 63], Err(10), &what);
    check_both(&[u64::MAX - 1, 3], Err(10), &what);
    check_both(&[3, u64::MAX - 43, 40, 0], Err(10), &what);
    check_both(&[u64::MAX; 60], Err(10), &what);
}

/// Every set of the two refusals: too many shots, and a length that is too long
/// at none, one or some of the places, those behind the 60th among them.
#[test]
fn refusals_in_the_order_9_10() {
    let what = || "order".into();
    let places = [
        &[][..],
        &[0],
        &[30],
        &[59],
        &[60],
        &[61],
        &[999],
        &[0, 60],
        &[59, 60, 999],
    ];
    let mut seen = BTreeMap::new();
    for count in [60, 61, 62, 1_000] {
        for long in places {
            for length in TOO_LONG {
                let mut lengths = vec![2; count];
                let long = long.iter().filter(|at| **at < count);
                for at in long.clone() {
                    lengths[*at] = length;
                }
                let holds = (count > 60, long.count() > 0);
                let expected = match holds {
                    (true, _) => Err(9),
                    (false, true) => Err(10),
                    (false, false) => Ok(size_by_sums(&lengths)),
                };
                check_both(&lengths, expected, &what);
                seen.insert(holds, expected.err());
            }
        }
    }
    let sets = [
        ((false, false), None),
        ((false, true), Some(10)),
        ((true, false), Some(9)),
        ((true, true), Some(9)),
    ];
    assert_eq!(seen, BTreeMap::from(sets));
}

/// List `n` of a test has the seed of the test plus `n`.
const LISTS: u64 = 10_000;
const LISTS_SEED: u64 = 0x512E_0000_0000;
const LARGE: u64 = 200_000;
const LARGE_SEED: u64 = 0x512E_1000_0000;

#[test]
fn random_lists() {
    let mut seen = BTreeMap::<u32, u64>::new();
    for number in 0..LISTS {
        let seed = LISTS_SEED + number;
        let lengths = random_lengths(&mut SplitMix64::new(seed));
        let what = || format!("list {number}, seed {seed:#x}");
        let sized = check_size(&lengths, &what);
        if let Ok(sized) = sized {
            assert_eq!(size_by_sums(&lengths), sized, "sums, {}", what());
        }
        *seen.entry(sized.err().unwrap_or(0)).or_default() += 1;
    }
    assert!(seen.keys().eq(&[0, 9, 10]), "{seen:?}");
    assert!(seen.values().all(|count| *count > 500), "{seen:?}");
}

/// A dropped shot, an edge, any length, or mostly one of a magnitude.
fn any_length(generator: &mut SplitMix64, shift: usize) -> u64 {
    match generator.below(10) {
        0 => 0,
        1 => one_of(generator, &EDGES),
        2 => generator.next_word() % (LONGEST + 1),
        _ => (generator.next_word() % (LONGEST + 1)) >> shift,
    }
}

/// Lists with pictures of every length, by sums alone.
#[test]
fn random_large_lists() {
    let mut longest = 0;
    for number in 0..LARGE {
        let seed = LARGE_SEED + number;
        let mut generator = SplitMix64::new(seed);
        let (count, shift) = (generator.below(61), generator.below(20));
        let length = |_| any_length(&mut generator, shift);
        let lengths: Vec<u64> = (0..count).map(length).collect();
        let expected = size_by_sums(&lengths);
        let what = || format!("large list {number}, seed {seed:#x}");
        check_answer(&lengths, Ok(expected), &what);
        longest = longest.max(expected.file_length);
    }
    assert!(longest > 30_000_000, "{longest}");
}

/// A buffer of the file length takes the whole list, and its total is that
/// length. One byte less takes all but the last kept picture, or, without one,
/// not even begin.
fn check_recorded(lengths: &[u64], what: &dyn Fn() -> String) {
    let sized = check_size(lengths, what).unwrap();
    let total = sized.file_length;
    let performed = recorded(lengths, total, what);
    assert_eq!(
        performed.numbers(),
        vec![0; lengths.len() + 2],
        "{}",
        what()
    );
    assert!(performed.whole, "{}", what());
    assert_eq!(
        performed.shots_and_totals().last(),
        Some(&total),
        "{}",
        what()
    );

    let mut numbers = vec![0; lengths.len() + 2];
    match lengths.iter().rposition(|length| *length > 0) {
        Some(last) => numbers[1 + last] = 11,
        None => {
            numbers.fill(8);
            numbers[0] = 11;
        }
    }
    let short = recorded(lengths, total - 1, what);
    assert_eq!(short.numbers(), numbers, "a byte less, {}", what());
    assert_ne!(short.shots_and_totals().last(), Some(&total), "{}", what());
}

/// What is said before the trigger is what recording then uses.
#[test]
fn then_recorded() {
    let what = || "recorded".into();
    for length in EDGES {
        check_recorded(&[length], &what);
        check_recorded(&[0, length, 0], &what);
    }
    for count in 0..=60 {
        check_recorded(&vec![0; count], &what);
        check_recorded(&vec![1; count], &what);
        let mixed: Vec<u64> = (0..count).map(|i| EDGES[i % 7]).collect();
        check_recorded(&mixed, &what);
    }
    for number in 0..1_000 {
        let seed = LISTS_SEED + LISTS + number;
        let lengths = random_lengths(&mut SplitMix64::new(seed));
        let what = || format!("recorded list {number}, seed {seed:#x}");
        if check_size(&lengths, &what).is_ok() {
            check_recorded(&lengths, &what);
        }
    }
}
