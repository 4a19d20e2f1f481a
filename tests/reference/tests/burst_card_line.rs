//! The card line (request N2): by hand, by its sentence, and the length of a full
//! burst against files that are recorded, of plain bursts, and of bare fronts.

mod help;

use help::{file_of, unsealed};
use reference::burst::card_line::full_burst_length;
use reference::burst::reader::front;
use reference::burst::size_up::record;
use reference::burst::{card_line, CardLine, EDITION_2};
use reference::random::SplitMix64;

fn line(bursts: u64, left: u64) -> Result<CardLine, u32> {
    Ok(CardLine { bursts, left })
}

/// Header 40, closing seal 32, and for each shot its picture, 32 more bytes of
/// the record and 12 of the index.
#[test]
fn by_hand() {
    for (card, shots, picture, expected) in [
        (0, 1, 1, line(0, 0)),
        (1, 1, 1, line(0, 1)),
        (72, 1, 1, line(0, 72)),
        (116, 1, 1, line(0, 116)),
        (117, 1, 1, line(1, 0)),
        (118, 1, 1, line(1, 1)),
        (233, 1, 1, line(1, 116)),
        (234, 1, 1, line(2, 0)),
        (415, 2, 128, line(0, 415)),
        (416, 2, 128, line(1, 0)),
        (1_000, 2, 128, line(2, 168)),
        (2_771, 60, 1, line(0, 2_771)),
        (2_772, 60, 1, line(1, 0)),
        (62_917_271, 60, 1_048_576, line(0, 62_917_271)),
        (62_917_272, 60, 1_048_576, line(1, 0)),
        (32_000_000_000, 3, 250_000, line(42_655, 48_380)),
        (34_359_738_368, 60, 1_048_576, line(546, 6_907_856)),
        (1 << 63, 1, 1, line(78_832_239_631_237_400, 8)),
        (u64::MAX, 1, 1, line(157_664_479_262_474_800, 15)),
        (u64::MAX, 60, 1_048_576, line(293_190_462_449, 32_487)),
    ] {
        let given = card_line(card, shots, picture);
        assert_eq!(given, expected, "{card}, {shots} of {picture}");
    }
}

/// Shots out of range, and lengths out of range. The low bits of some are in it.
const SHOTS: [u64; 8] = [0, 61, 62, 256, 65_537, (1 << 32) + 1, 1 << 63, u64::MAX];
const PICTURES: [u64; 6] = [0, 1_048_577, 1 << 21, (1 << 32) + 1, 1 << 63, u64::MAX];

#[test]
fn refusals_in_the_order_16_10() {
    for card in [0, 117, u64::MAX] {
        for shots in SHOTS {
            for picture in [&PICTURES[..], &[1, 1_048_576]].concat() {
                let given = card_line(card, shots, picture);
                assert_eq!(given, Err(16), "{shots} of {picture}");
            }
        }
        for shots in [1, 2, 59, 60] {
            for picture in PICTURES {
                let given = card_line(card, shots, picture);
                assert_eq!(given, Err(10), "{shots} of {picture}");
            }
            for picture in [1, 2, 1_048_575, 1_048_576] {
                assert!(card_line(card, shots, picture).is_ok());
            }
        }
    }
}

/// Picture lengths around blocks, 16 bits and the longest.
const LENGTHS: [u64; 9] = [1, 2, 127, 128, 129, 257, 65_535, 65_536, 1_048_576];

/// The total of a close, for every count of shots; the longest pictures for the
/// fewest shots and for the most.
#[test]
fn length_of_recorded_files() {
    for shots in 1..=60 {
        let lengths = match shots {
            1 | 2 | 60 => &LENGTHS[..],
            _ => &LENGTHS[..6],
        };
        for picture in lengths {
            let recorded = record(&vec![*picture; shots]);
            let length = full_burst_length(shots as u64, *picture);
            assert_eq!(length, recorded, "{shots} of {picture}");
        }
    }
}

/// The plain burst lays out its file by itself.
#[test]
fn length_of_plain_files() {
    for shots in 1..=60 {
        for picture in [1, 44, 300] {
            let file = file_of(EDITION_2, 9, &vec![picture; shots]);
            let length = full_burst_length(shots as u64, picture as u64);
            assert_eq!(length, file.len() as u64, "{shots} of {picture}");
        }
    }
}

/// Longer files than the recorder is asked for, with zeros for all that is
/// sealed: the front rules take them.
#[test]
fn length_by_the_front_rules() {
    for shots in 1..=60 {
        for picture in LENGTHS {
            let file = unsealed(EDITION_2, &vec![picture as usize; shots]);
            assert!(front(&file).is_ok(), "{shots} of {picture}");
            let length = full_burst_length(shots as u64, picture);
            assert_eq!(length, file.len() as u64, "{shots} of {picture}");
        }
    }
}

/// card = bursts times file length + left, with left below the file length: one
/// pair of numbers alone fulfils it.
#[test]
fn the_sentence() {
    let mut generator = SplitMix64::new(0xCA4D);
    for _ in 0..20_000 {
        let shots = 1 + generator.below(60) as u64;
        let picture = 1 + (generator.next_word() % 1_048_576 >> generator.below(20));
        let card = generator.next_word() >> generator.below(64);
        let CardLine { bursts, left } = card_line(card, shots, picture).unwrap();
        let length = full_burst_length(shots, picture);
        let sum = u128::from(bursts) * u128::from(length) + u128::from(left);
        assert_eq!(sum, u128::from(card), "{card}, {shots} of {picture}");
        assert!(left < length, "{card}, {shots} of {picture}");
    }
}
