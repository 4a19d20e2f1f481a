//! burst_list ("Afterwards": the lister) against texts written down here, and
//! against the reference on many files, right and damaged, of both editions.

use std::collections::BTreeSet;

use burst_calls::draft::{base, draft, Draft};
use burst_calls::list::{file_of, CAMERAS};
use burst_calls::listing::{check_list, check_rooms, check_text, BROKEN, LIST_BYTES, TOO_LONG};
use burst_calls::random_front::random_front;
use burst_calls::random_list::one_of;
use reference::burst::lister::list;
use reference::burst::{Edition, EDITIONS, EDITION_1, EDITION_2};
use reference::page::WORKED;
use reference::random::SplitMix64;

/// The editions, each with the offset where its records start.
const STARTS: [(Edition, u32); 2] = [(EDITION_1, 32), (EDITION_2, 40)];

/// The text of the worked file in edition 1, and in edition 2.
const EXAMPLE_1: &str = "burst 7\ntaken 3 kept 1 dropped 2\nshot 2 at 32 length 3\n";
const EXAMPLE_2: &str = "burst 7\ntaken 3 kept 1 dropped 2\nshot 2 at 40 length 3\n";

/// The worked file in both editions, with its text.
fn worked() -> [(Vec<u8>, &'static str); 2] {
    let [old, new] = WORKED.map(|worked| worked.file());
    [(old, EXAMPLE_1), (new, EXAMPLE_2)]
}

/// burst_list gives this text, and 5 exactly where it does not fit.
fn assert_text(file: &[u8], expected: &str, what: &str) {
    check_rooms(file, expected, &|| what.into());
}

/// Shots 1, 2, 3 and so on with pictures of these lengths, none dropped.
fn all_kept(edition: Edition, lengths: &[u32]) -> Draft {
    let kept: Vec<(u16, u32)> = (1..).zip(lengths.iter().copied()).collect();
    draft(edition, kept.len() as u16, &kept)
}

#[test]
fn example() {
    for (edition, (file, text)) in EDITIONS.into_iter().zip(worked()) {
        assert_text(&file, text, "the worked file");
        assert_text(&file_of(edition, 7, &[0, 3, 0]), text, "another key");
    }
    let burst = 0x0123_4567_89AB_CDEFu64;
    for (edition, start) in STARTS {
        let text = format!(
            "burst {burst}\ntaken 3 kept 2 dropped 1\n\
             shot 1 at {start} length 5\nshot 3 at {} length 7\n",
            start + 37
        );
        assert_text(&base(edition).unsealed(), &text, "no seal is right");
    }
}

#[test]
fn bursts_without_pictures() {
    for (taken, text) in [
        (0, "burst 5\ntaken 0 kept 0 dropped 0\n"),
        (1, "burst 5\ntaken 1 kept 0 dropped 1\n"),
        (60, "burst 5\ntaken 60 kept 0 dropped 60\n"),
    ] {
        for edition in EDITIONS {
            let file = file_of(edition, 5, &vec![0; taken]);
            assert_text(&file, text, "all dropped");
        }
    }
}

#[test]
fn burst_numbers() {
    let mut numbers = vec![0, 1 << 63, (1 << 63) - 1, u64::MAX, u64::MAX - 1];
    // 9, 10, 99, 100 and so on: each count of digits, at both ends.
    for digits in 0..20 {
        let power = 10u64.pow(digits);
        numbers.extend([power - 1, power, power + 1, 9 * (power / 10)]);
    }
    let text = |number: &str| format!("burst {number}\ntaken 0 kept 0 dropped 0\n");
    let most = text("18446744073709551615");
    for edition in EDITIONS {
        for number in &numbers {
            let mut empty = draft(edition, 0, &[]);
            empty.header.burst_number = *number;
            assert_text(&empty.unsealed(), &text(&number.to_string()), "number");
        }
        let half = file_of(edition, 1 << 63, &[]);
        assert_text(&half, &text("9223372036854775808"), "2^63");
        assert_text(&file_of(edition, u64::MAX, &[]), &most, "2^64 - 1");
    }
}

/// The camera number shows nowhere.
#[test]
fn camera_numbers() {
    for camera in CAMERAS {
        let mut file = draft(EDITION_2, 3, &[(2, 3)]);
        (file.header.camera, file.header.burst_number) = (camera, 7);
        assert_text(&file.unsealed(), EXAMPLE_2, &format!("camera {camera}"));
    }
}

/// Lengths and offsets around each power of ten up to 10,000.
#[test]
fn every_count_of_digits() {
    for (power, last) in [(100, 9), (1_000, 10), (10_000, 11)] {
        for number in [power - 1, power, power + 1] {
            for (edition, start) in STARTS {
                let first = number - start - 32;
                let mut file = all_kept(edition, &[first, number, last]);
                file.header.burst_number = 1;
                let third = 2 * number + 32;
                let text = format!(
                    "burst 1\ntaken 3 kept 3 dropped 0\nshot 1 at {start} length {first}\n\
                     shot 2 at {number} length {number}\nshot 3 at {third} length {last}\n"
                );
                assert_text(&file.unsealed(), &text, "digits");
            }
        }
    }
}

/// 60 lines, and a burst number of 20 digits.
#[test]
fn sixty_long_lines() {
    for (edition, start) in STARTS {
        let mut file = all_kept(edition, &[1_001; 60]);
        file.header.burst_number = u64::MAX;
        let mut text = format!("burst {}\ntaken 60 kept 60 dropped 0\n", u64::MAX);
        for place in 0..60 {
            let (shot, offset) = (place + 1, start + 1_033 * place);
            text += &format!("shot {shot} at {offset} length 1001\n");
        }
        assert_eq!(file.length, start as usize + 62_732);
        assert_text(&file.unsealed(), &text, "60 shots");
    }
}

/// Every room around each text: 5 exactly where the text does not fit, and then
/// nothing is written.
#[test]
fn room_for_the_text() {
    assert_eq!([EXAMPLE_2, BROKEN, TOO_LONG].map(str::len), [55, 9, 15]);
    let [(old, old_text), (worked, text)] = worked();
    let long = all_kept(EDITION_2, &[70_000]).unsealed();
    let broken = base(EDITION_2).unsealed()[1..].to_vec();
    for (file, text) in [
        (&old[..], old_text),
        (&worked, text),
        (&broken, BROKEN),
        (&[], BROKEN),
        (&long, TOO_LONG),
    ] {
        for room in (0..120).chain([4_096, 4_799, 4_800, 4_801, 65_536, 70_336]) {
            check_text(file, room, text, &|| "room".into());
        }
    }
    // Whole listings of 0 to 60 lines.
    for kept in [0, 1, 2, 9, 10, 11, 59, 60] {
        let file = all_kept(EDITION_2, &vec![7; kept]).unsealed();
        let text = list(&file);
        assert_eq!(text.lines().count(), 2 + kept);
        for room in text.len() - 40..text.len() + 3 {
            check_text(&file, room, &text, &|| format!("{kept} lines"));
        }
    }
    let mut text = [0; 54];
    let refused = burst_calls::list_front(&worked, &mut text);
    assert_eq!((refused, text), ((5, 0), [0; 54]));
    let mut text = [0; 55];
    let given = burst_calls::list_front(&worked, &mut text);
    assert_eq!((given, &text[..]), ((0, 55), EXAMPLE_2.as_bytes()));
}

/// 65,536 bytes are listed, more are not; a broken front comes after that.
#[test]
fn longest_file() {
    for (edition, start) in STARTS {
        let most = 65_460 - start;
        let longest = all_kept(edition, &[most]).unsealed();
        assert_eq!(longest.len(), 65_536);
        let text = format!(
            "burst {}\ntaken 1 kept 1 dropped 0\nshot 1 at {start} length {most}\n",
            0x0123_4567_89AB_CDEFu64
        );
        assert_text(&longest, &text, "65,536 bytes");
        for length in [most + 1, most + 2, 131_072, 1_048_576] {
            let long = all_kept(edition, &[length]).unsealed();
            assert_text(&long, TOO_LONG, "a right front");
        }
        assert_text(&[&longest[..], &[0]].concat(), TOO_LONG, "a byte more");
    }
    assert_text(&[0; 65_536], BROKEN, "zeros");
    for length in [65_537, 65_600, 131_072, 131_072 + 111, 1 << 24] {
        let mut long = file_of(EDITION_2, 7, &[0, 3, 0]);
        long.resize(length, 0);
        assert_text(&long, TOO_LONG, "zeros after a right file");
    }
}

/// Each byte of header and index with every value. The front stays right with
/// another burst or camera number, and with some other shot numbers.
#[test]
fn every_value_of_every_front_byte() {
    for (edition, start) in STARTS {
        for (right, still_right) in [
            (draft(edition, 0, &[]), 0),
            (draft(edition, 3, &[(2, 3)]), 2),
            (base(edition), 2),
            (draft(edition, 9, &[(2, 5), (4, 7), (5, 1)]), 2 + 1 + 4),
        ] {
            let mut file = right.unsealed();
            let mut accepted = 0;
            for at in (0..start as usize).chain(right.index_at..right.closing_at) {
                let byte = file[at];
                for value in (0..=255).filter(|value| *value != byte) {
                    file[at] = value;
                    let what = || format!("{:?}, byte {at} value {value}", right.entries);
                    let listed = check_list(&file, LIST_BYTES, &what);
                    let is_free = (8..16).contains(&at) || (32..36).contains(&at);
                    assert!(listed == 0 || !is_free, "{}", what());
                    accepted += usize::from(listed == 0 && !is_free);
                }
                file[at] = byte;
            }
            assert_eq!(accepted, still_right, "{:?}", right.entries);
        }
    }
}

/// No byte of a record or of the closing seal matters.
#[test]
fn seals_do_not_matter() {
    for (right, text) in worked() {
        let start = right.len() - 79;
        for at in (start..start + 35).chain(start + 47..start + 79) {
            let mut file = right.clone();
            file[at] ^= 0xFF;
            assert_text(&file, text, "a seal");
        }
    }
}

/// Random right lists of 0 to 60 shots.
#[test]
fn random_right_lists() {
    const SEED: u64 = 0x1157_0000_0000;
    for round in 0..5_000 {
        let generator = &mut SplitMix64::new(SEED + round);
        let edition = one_of(generator, &EDITIONS);
        let taken = generator.below(61) as u16;
        let dropped_in_ten = generator.below(11);
        let mut kept = Vec::new();
        for shot in 1..=taken {
            if generator.below(10) >= dropped_in_ten {
                kept.push((shot, 1 + generator.below(300) as u32));
            }
        }
        let mut right = draft(edition, taken, &kept);
        right.header.burst_number = generator.next_word() >> generator.below(64);
        let what = || format!("seed {:#x}", SEED + round);
        let file = right.unsealed();
        // One byte less than the text, the text, one more, two more.
        let more = generator.below(4);
        let listed = check_list(&file, list(&file).len() + more - 1, &what);
        assert_eq!(listed, if more == 0 { 5 } else { 0 }, "{}", what());
    }
}

/// Fronts with up to three fields changed.
#[test]
fn random_fronts() {
    const SEED: u64 = 0x1157_F000_0000;
    let mut counts = [0; 2];
    for round in 0..50_000 {
        let generator = &mut SplitMix64::new(SEED + round);
        let front = random_front(generator);
        let what = || format!("seed {:#x}, {:?}", SEED + round, front.header);
        match check_list(&front.unsealed(), LIST_BYTES, &what) {
            0 => counts[0] += 1,
            12 => counts[1] += 1,
            number => panic!("{number}, {}", what()),
        }
    }
    assert!(counts.iter().all(|count| *count > 10_000), "{counts:?}");
}

/// Bytes of any kind, and right files cut and continued by them, of 0 to 200
/// bytes.
#[test]
fn random_bytes() {
    const SEED: u64 = 0x1157_B000_0000;
    let right = file_of(EDITION_2, 7, &[0, 3, 0]);
    let mut seen = BTreeSet::new();
    for length in 0..=200 {
        for round in 0..50 {
            let seed = SEED + 1_000 * length as u64 + round;
            let generator = &mut SplitMix64::new(seed);
            let mut file = generator.next_bytes(length);
            let what = || format!("seed {seed:#x}");
            assert_eq!(check_list(&file, LIST_BYTES, &what), 12, "{}", what());
            let front = generator.below(length.min(right.len()) + 1);
            file[..front].copy_from_slice(&right[..front]);
            seen.insert(check_list(&file, LIST_BYTES, &what));
            // The whole front, and a seal of any bytes.
            if length == right.len() {
                file[..87].copy_from_slice(&right[..87]);
                assert_text(&file, EXAMPLE_2, &what());
            }
        }
    }
    assert_eq!(seen, BTreeSet::from([0, 12]));
}
