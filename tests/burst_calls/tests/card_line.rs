//! burst_card_line (request N2): by hand, around whole numbers of files, at the
//! edges of 64 bits, refused, against burst_size_up and burst_replay, and against
//! the reference.

use std::collections::BTreeMap;

use burst_calls::cards::{asked, check_answer, check_both, check_card, length_by_sum};
use burst_calls::list::{shots_of, CAMERA, KEY, SITE_MARK};
use burst_calls::random_card::{random_asked, BAD_SHOTS, MOST};
use burst_calls::random_size::{EDGES, LONGEST, TOO_LONG};
use burst_calls::reading::CHECK_INFO;
use burst_calls::script::script_of;
use burst_calls::sizing::recorded;
use burst_calls::{check, replay, size_up};
use reference::burst::CardLine;
use reference::random::SplitMix64;

fn line(bursts: u64, left: u64) -> Result<CardLine, u32> {
    Ok(CardLine { bursts, left })
}

/// A file of one picture of 1 byte has 117 bytes, 40 of header, 33 of record, 12
/// of index and 32 of closing seal; two of 128 bytes make 416, three of 250,000
/// make 750,204, sixty of 1 byte 2,772 and sixty of the longest 62,917,272.
#[test]
fn by_hand() {
    for (card, shots, picture, expected) in [
        (0, 1, 1, line(0, 0)),
        (1, 1, 1, line(0, 1)),
        (40, 1, 1, line(0, 40)),
        (105, 1, 1, line(0, 105)),
        (116, 1, 1, line(0, 116)),
        (117, 1, 1, line(1, 0)),
        (118, 1, 1, line(1, 1)),
        (233, 1, 1, line(1, 116)),
        (234, 1, 1, line(2, 0)),
        (1_000, 2, 128, line(2, 168)),
        (5_543, 60, 1, line(1, 2_771)),
        (5_544, 60, 1, line(2, 0)),
        (32_000_000_000, 3, 250_000, line(42_655, 48_380)),
        (62_917_271, 60, LONGEST, line(0, 62_917_271)),
        (62_917_272, 60, LONGEST, line(1, 0)),
        (34_359_738_368, 60, LONGEST, line(546, 6_907_856)),
        ((1 << 32) - 1, 1, 1, line(36_709_122, 21)),
        (1 << 32, 1, 1, line(36_709_122, 22)),
        ((1 << 32) + 1, 1, 1, line(36_709_122, 23)),
        (1 << 63, 1, 1, line(78_832_239_631_237_400, 8)),
        (u64::MAX, 1, 1, line(157_664_479_262_474_800, 15)),
        (u64::MAX, 60, 1, line(6_654_669_579_260_300, 15)),
        (u64::MAX, 60, LONGEST, line(293_190_462_449, 32_487)),
    ] {
        let what = || "by hand".into();
        check_both(asked(card, shots, picture), expected, &what);
    }
}

/// Counts of shots, few and most.
const SHOTS: [u64; 6] = [1, 2, 7, 30, MOST - 1, MOST];

/// The picture lengths among the edges.
const PICTURES: &[u64] = EDGES.split_at(1).1;

#[test]
fn card_of_no_bytes() {
    let what = || "no bytes".into();
    for shots in 1..=MOST {
        for picture in PICTURES {
            check_both(asked(0, shots, *picture), line(0, 0), &what);
        }
    }
}

/// Cards of so many files, of a byte less and of a byte more.
fn check_around(files: u64, shots: u64, picture: u64, length: u64) {
    let what = || format!("around {files} files of {length}");
    let card = files * length;
    for (card, expected) in [
        (Some(card - 1), line(files - 1, length - 1)),
        (Some(card), line(files, 0)),
        (card.checked_add(1), line(files, 1)),
    ] {
        if let Some(card) = card {
            check_both(asked(card, shots, picture), expected, &what);
        }
    }
}

/// Up to the most files that a card of less than 2 to the 64th bytes can hold.
#[test]
fn around_whole_files() {
    for shots in SHOTS {
        for picture in PICTURES {
            let length = length_by_sum(shots, *picture);
            let most = u64::MAX / length;
            for files in [1, 2, 3, 255, 256, 65_536, 1 << 32, most / 2, most - 1, most] {
                check_around(files, shots, *picture, length);
            }
        }
    }
}

/// Every power of two, a byte less and a byte more, and the largest card.
fn cards_at_powers() -> Vec<u64> {
    let powers = (0..64).map(|power| 1u64 << power);
    let mut cards: Vec<u64> = powers.flat_map(|card| [card - 1, card, card + 1]).collect();
    cards.extend([u64::MAX - 1, u64::MAX]);
    cards
}

#[test]
fn edges_of_64_bits() {
    let what = || "power of two".into();
    for card in cards_at_powers() {
        for shots in SHOTS {
            for picture in PICTURES {
                check_card(asked(card, shots, *picture), &what).unwrap();
            }
        }
    }
}

/// Cards of few and of many bytes. They do not matter where a call is refused.
const CARDS: [u64; 8] = [0, 1, 116, 117, 62_917_272, (1 << 32) + 1, 1 << 63, u64::MAX];

/// The answer by the sum.
fn line_by_sum(card: u64, shots: u64, picture: u64) -> Result<CardLine, u32> {
    let length = length_by_sum(shots, picture);
    line(card / length, card % length)
}

/// Every pair of shots and picture lengths, each in range or out of it.
#[test]
fn refusals_in_the_order_16_10() {
    let what = || "order".into();
    let mut seen = BTreeMap::new();
    for shots in [&SHOTS[..], &BAD_SHOTS].concat() {
        for picture in [&EDGES[..], &TOO_LONG].concat() {
            let holds = (BAD_SHOTS.contains(&shots), !PICTURES.contains(&picture));
            for card in CARDS {
                let expected = match holds {
                    (true, _) => Err(16),
                    (false, true) => Err(10),
                    (false, false) => line_by_sum(card, shots, picture),
                };
                check_both(asked(card, shots, picture), expected, &what);
                seen.insert(holds, expected.err());
            }
        }
    }
    let sets = [
        ((false, false), None),
        ((false, true), Some(10)),
        ((true, false), Some(16)),
        ((true, true), Some(16)),
    ];
    assert_eq!(seen, BTreeMap::from(sets));
}

/// One bit above those of a number in range.
#[test]
fn numbers_whose_low_bits_are_in_range() {
    let what = || "one bit more".into();
    for card in CARDS {
        for (bit, shots) in (6..64).flat_map(|bit| SHOTS.map(|shots| (bit, shots))) {
            let shots = shots + (1 << bit);
            check_both(asked(card, shots, 300), Err(16), &what);
            check_both(asked(card, shots, 0), Err(16), &what);
        }
        for (bit, picture) in (20..64).flat_map(|bit| [1, 300, LONGEST].map(|low| (bit, low))) {
            let picture = picture + (1 << bit);
            check_both(asked(card, 5, picture), Err(10), &what);
            check_both(asked(card, 61, picture), Err(16), &what);
        }
    }
}

/// Every number of 16 bits: 1 to 60 shots are in range, and no others.
#[test]
fn every_count_of_shots() {
    let what = || "shots".into();
    for shots in 0..65_536 {
        let expected = match shots {
            1..=MOST => line_by_sum(1 << 40, shots, 1_000),
            _ => Err(16),
        };
        check_both(asked(1 << 40, shots, 1_000), expected, &what);
    }
}

/// Every picture length, with every count of shots in turn: a card of one file,
/// of a byte less, and of many files.
#[test]
fn every_picture_length() {
    let what = || "picture length".into();
    for picture in 1..=LONGEST {
        for shots in [1, 1 + picture % MOST, MOST] {
            let length = length_by_sum(shots, picture);
            let less = asked(length - 1, shots, picture);
            check_answer(less, line(0, length - 1), &what);
            check_answer(asked(length, shots, picture), line(1, 0), &what);
            let many = asked(u64::MAX, shots, picture);
            check_answer(many, line_by_sum(u64::MAX, shots, picture), &what);
        }
    }
    for picture in [0, LONGEST + 1, LONGEST + 2] {
        check_both(asked(1 << 40, 1, picture), Err(10), &what);
    }
}

/// A card of exactly this file length holds one burst, and of two such lengths
/// two; a byte less than one holds none.
fn check_length(length: u64, shots: u64, picture: u64, what: &dyn Fn() -> String) {
    check_both(asked(length - 1, shots, picture), line(0, length - 1), what);
    check_both(asked(length, shots, picture), line(1, 0), what);
    check_both(
        asked(2 * length - 1, shots, picture),
        line(1, length - 1),
        what,
    );
    check_both(asked(2 * length, shots, picture), line(2, 0), what);
}

/// The file length is that of burst_size_up.
#[test]
fn as_it_is_sized_up() {
    let mut generator = SplitMix64::new(0xCA4D_5000);
    for shots in 1..=MOST {
        let any = (0..40).map(|_| 1 + generator.next_word() % LONGEST);
        for picture in PICTURES.iter().copied().chain(any) {
            let (number, size) = size_up(&vec![picture; shots as usize]);
            assert_eq!(number, 0);
            let what = || format!("sized up, {size:?}");
            check_length(size.file_length, shots, picture, &what);
        }
    }
}

/// It is the total that burst_replay answers.
#[test]
fn as_it_is_recorded() {
    let what = || "recorded".into();
    for shots in 1..=MOST {
        let longer: &[u64] = match shots {
            1 | 2 => &[65_536, LONGEST],
            _ => &[],
        };
        for picture in [&[1, 3, 128, 257], longer].concat() {
            let lengths = vec![picture; shots as usize];
            let room = length_by_sum(shots, picture) + 100;
            let performed = recorded(&lengths, room, &what);
            assert!(performed.numbers().iter().all(|number| *number == 0));
            let total = *performed.shots_and_totals().last().unwrap();
            check_length(total, shots, picture, &what);
        }
    }
}

/// Records full bursts on a card, one behind the other, each in all that the ones
/// before leave, until one does not fit: where the files begin and the last one
/// ends.
fn record_until_full(card: &mut [u8], shots: usize, picture: usize) -> Vec<usize> {
    let script = script_of(&shots_of(&vec![picture; shots]));
    let mut ends = vec![0];
    loop {
        let (burst, start) = (ends.len() as u64, ends[ends.len() - 1]);
        let (mut answers, rest) = (vec![0xFF; 8 * (shots + 2)], &mut card[start..]);
        let given = replay(&KEY, burst, CAMERA, &SITE_MARK, &script, rest, &mut answers);
        assert_eq!(given, (shots + 2, 1));
        if answers.chunks(8).any(|answer| answer[..4] != [0; 4]) {
            return ends;
        }
        let total = answers.last_chunk().map(|total| u32::from_le_bytes(*total));
        ends.push(start + total.unwrap() as usize);
    }
}

/// The card line is how many were recorded so, and the bytes behind the last.
/// Check accepts each of them where it stands.
fn check_filled(card: usize, shots: usize, picture: usize) {
    let mut bytes = vec![0xFF; card];
    let ends = record_until_full(&mut bytes, shots, picture);
    for (burst, file) in (1u64..).zip(ends.windows(2)) {
        let mut info = [0; CHECK_INFO];
        let given = check(&KEY, &bytes[file[0]..file[1]], &mut info);
        assert_eq!(given, (0, 0), "burst {burst} of {ends:?}");
        assert_eq!(info[..8], burst.to_le_bytes());
        assert_eq!(info[24..28], [shots as u8, 0, shots as u8, 0]);
    }
    let (bursts, left) = (ends.len() - 1, card - ends[ends.len() - 1]);
    let asked = asked(card as u64, shots as u64, picture as u64);
    check_both(asked, line(bursts as u64, left as u64), &|| "filled".into());
}

#[test]
fn cards_filled_with_bursts() {
    for card in 0..1_000 {
        check_filled(card, 1, 1);
        check_filled(card, 2, 100);
    }
    for (shots, picture) in [(1, 1), (3, 200), (7, 128), (60, 1), (60, 500)] {
        for card in [4_096, 10_000, 65_536, 100_000] {
            check_filled(card, shots, picture);
        }
    }
    check_filled(2_500_000, 1, LONGEST as usize);
}

/// Case `n` has this seed plus `n`.
const CASES: u64 = 300_000;
const CASES_SEED: u64 = 0xCA4D_0000_0000;

#[test]
fn random_cases() {
    let mut seen = BTreeMap::<u32, u64>::new();
    let (mut whole, mut none) = (0, 0);
    for number in 0..CASES {
        let seed = CASES_SEED + number;
        let asked = random_asked(&mut SplitMix64::new(seed));
        let what = || format!("case {number}, seed {seed:#x}");
        let answer = check_card(asked, &what);
        *seen.entry(answer.err().unwrap_or(0)).or_default() += 1;
        if let Ok(line) = answer {
            whole += u64::from(line.left == 0);
            none += u64::from(line.bursts == 0);
        }
    }
    assert!(seen.keys().eq(&[0, 10, 16]), "{seen:?}");
    assert!(seen.values().all(|count| *count > 30_000), "{seen:?}");
    assert!(whole > 10_000 && none > 10_000, "{whole}, {none}");
}
