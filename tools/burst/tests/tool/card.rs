//! How many full bursts a card holds.

use crate::folder::{picture, Folder, Run};
use crate::names::{self, check_shown};
use std::ffi::OsStr;
use std::os::unix::ffi::OsStrExt;

/// Card, shots and picture, and what is said of them: bursts, bytes of each, and
/// bytes left.
type Card = ([&'static str; 3], [u64; 3]);

/// By document 01 and request N1: a file has 72 bytes, and 44 more beside each
/// picture.
const CARDS: [Card; 27] = [
    (["0", "1", "1"], [0, 117, 0]),
    (["1", "1", "1"], [0, 117, 1]),
    (["116", "1", "1"], [0, 117, 116]),
    (["117", "1", "1"], [1, 117, 0]),
    (["118", "1", "1"], [1, 117, 1]),
    (["0118", "01", "001"], [1, 117, 1]),
    (["233", "1", "1"], [1, 117, 116]),
    (["234", "1", "1"], [2, 117, 0]),
    (["1000", "1", "1"], [8, 117, 64]),
    (["587", "3", "128"], [0, 588, 587]),
    (["588", "3", "128"], [1, 588, 0]),
    (["1TB", "3", "128"], [1_700_680_272, 588, 64]),
    (["2771", "60", "1"], [0, 2_772, 2_771]),
    (["2772", "60", "1"], [1, 2_772, 0]),
    (["1048691", "1", "1048576"], [0, 1_048_692, 1_048_691]),
    (["1048692", "1", "1048576"], [1, 1_048_692, 0]),
    (["62917271", "60", "1048576"], [0, 62_917_272, 62_917_271]),
    (["62917272", "60", "1048576"], [1, 62_917_272, 0]),
    (["0", "60", "1048576"], [0, 62_917_272, 0]),
    (["32GB", "10", "250000"], [12_797, 2_500_512, 947_936]),
    (["32G", "10", "250000"], [13_741, 2_500_512, 202_976]),
    (["64GB", "60", "1048576"], [1_017, 62_917_272, 13_134_376]),
    // 2^32 and 2^32 - 1.
    (["4294967296", "1", "1"], [36_709_122, 117, 22]),
    (["4294967295", "1", "1"], [36_709_122, 117, 21]),
    // 2^64 - 1.
    (
        ["18446744073709551615", "1", "1"],
        [157_664_479_262_474_800, 117, 15],
    ),
    (
        ["18446744073709551615", "60", "1048576"],
        [293_190_462_449, 62_917_272, 32_487],
    ),
    (["16777215T", "1", "1"], [157_664_469_864_939_520, 117, 0]),
];

/// The units, and how many bytes each has.
const UNITS: [(&str, u64); 13] = [
    ("", 1),
    ("K", 1_024),
    ("KiB", 1_024),
    ("KB", 1_000),
    ("M", 1_048_576),
    ("MiB", 1_048_576),
    ("MB", 1_000_000),
    ("G", 1_073_741_824),
    ("GiB", 1_073_741_824),
    ("GB", 1_000_000_000),
    ("T", 1_099_511_627_776),
    ("TiB", 1_099_511_627_776),
    ("TB", 1_000_000_000_000),
];

fn card(folder: &Folder, [bytes, shots, picture]: [&str; 3]) -> Run {
    let options = ["--bytes", bytes, "--shots", shots, "--picture", picture];
    folder.run(&[&["card"], &options[..]].concat())
}

fn line([bursts, each, left]: [u64; 3]) -> String {
    format!("bursts {bursts} bytes of each {each} bytes left {left}\n")
}

/// How many bytes the tool takes the card to have.
fn card_bytes(folder: &Folder, bytes: &str) -> u64 {
    let out = card(folder, [bytes, "1", "1"]).done();
    let numbers = out.split_whitespace().filter_map(|word| word.parse().ok());
    let numbers: Vec<u64> = numbers.collect();
    let [bursts, 117, left] = numbers[..] else {
        panic!("{out}");
    };
    bursts * 117 + left
}

#[test]
fn full_bursts_are_counted() {
    let folder = Folder::new();
    for (given, numbers) in CARDS {
        assert_eq!(card(&folder, given).done(), line(numbers), "{given:?}");
    }
    folder.check_nothing_new();
}

#[test]
fn the_bytes_of_each_are_those_of_a_file_that_is_recorded() {
    for (shots, length) in [(1, 1), (1, 1_048_576), (2, 127), (7, 3), (8, 3), (60, 128)] {
        let folder = Folder::new();
        folder.put("picture", &picture(length, 1));
        folder
            .record(&["--keep", "x", "picture"].repeat(shots))
            .done();
        let each = folder.get("out.burst").len() as u64;
        let (shots, length) = (shots.to_string(), length.to_string());
        for (bytes, bursts, left) in [
            (each - 1, 0, each - 1),
            (each, 1, 0),
            (2 * each - 1, 1, each - 1),
            (2 * each, 2, 0),
        ] {
            let out = card(&folder, [&bytes.to_string(), &shots, &length]).done();
            assert_eq!(out, line([bursts, each, left]), "{shots} {length}");
        }
    }
}

#[test]
fn every_unit_has_its_bytes() {
    let folder = Folder::new();
    for (unit, bytes) in UNITS {
        // Leading zeros change nothing, however many digits there are.
        for (typed, count) in [("0", 0), ("1", 1), ("512", 512), (&"7".repeat(6), 777_777)] {
            let found = card_bytes(&folder, &format!("{typed}{unit}"));
            assert_eq!(found, count * bytes, "{typed}{unit}");
            let zeros = "0".repeat(20);
            let found = card_bytes(&folder, &format!("{zeros}{typed}{unit}"));
            assert_eq!(found, count * bytes, "{zeros}{typed}{unit}");
        }
    }
}

/// What does not fit into 64 bits is not cut to them: 16777217T would be 1T.
#[test]
fn a_card_of_2_to_the_64_bytes_is_64_in_every_unit() {
    let folder = Folder::new();
    for (unit, bytes) in UNITS {
        let most = u64::MAX / bytes;
        let found = card_bytes(&folder, &format!("{most}{unit}"));
        assert_eq!(found, most * bytes, "{most}{unit}");
        let most = u128::from(most);
        for count in [most + 1, most + 2, 1 << 64, (1 << 64) + 1, 1 << 100] {
            let typed = format!("{count}{unit}");
            let said = format!("--bytes {typed} is above 18446744073709551615 bytes\n");
            let run = card(&folder, [&typed, "1", "1"]).failed(64, &[&said]);
            assert_eq!(run.out, "", "{typed}");
        }
    }
    for typed in ["18446744073709551616", "16777216T", "16777216TiB"] {
        card(&folder, [typed, "1", "1"]).failed(64, &["is above"]);
    }
}

/// Words that are no card.
const NO_CARDS: &str = "G GB GiB 32g 32gb 32Gb 32gB 32k 32kB 32kiB 32KIB 32Kib 32KI 32Ki 32iB 32B \
                        32P 32PB 32E 32GG 32GBB 32GKB 32G1 G32 1.5G 1,000 1_000 1'000 1e9 0x20 \
                        -1 -1G +1 +1G - \u{663}\u{662}G 32\u{ff27}";

/// More of them, with spaces or with nothing: bars stand between them.
const NO_WORDS: &str = "| |32 G|32 GB| 32|32 |32G |32G\n|32\u{a0}G";

#[test]
fn bytes_in_any_other_form_are_64_and_the_forms_are_named() {
    let folder = Folder::new();
    let forms = "--bytes wants decimal digits, alone or with one of K, M, G, T, KiB, MiB, GiB, \
                 TiB, KB, MB, GB, TB right after them, not `";
    let words = NO_CARDS.split(' ').chain(NO_WORDS.split('|'));
    let words = words.map(str::as_bytes);
    // Neither is what is not UTF-8.
    for bytes in words.chain([&b"32\xff"[..], b"\xff32G"]) {
        let mut command = folder.command(&["card", "--shots", "1", "--picture", "1", "--bytes"]);
        command.arg(OsStr::from_bytes(bytes));
        let run = Run::of(command.output().unwrap());
        let run = run.failed(64, &[forms, "`burst card --help` shows"]);
        assert_eq!(run.out, "", "{}", run.err);
    }
    card(&folder, ["32g", "1", "1"]).failed(64, &["not `32g`\n"]);
}

#[test]
fn options_stand_in_any_order() {
    let folder = Folder::new();
    let mut options = ["--bytes 32GB", "--shots 10", "--picture 250000"];
    // Two swaps in turn go through all six orders.
    for swap in [0, 1, 0, 1, 0, 1] {
        options.swap(swap, swap + 1);
        let words = format!("card {}", options.join(" "));
        let out = folder.say(&words).done();
        assert_eq!(out, line([12_797, 2_500_512, 947_936]), "{words}");
    }
}

/// Cut to 8, 16 or 32 bits, some of them would be 1.
const WRONG_SHOTS: [&str; 9] = [
    "0",
    "00",
    "61",
    "62",
    "257",
    "65537",
    "4294967297",
    "9223372036854775809",
    "18446744073709551615",
];

/// Cut to 32 bits, some of them would be 1.
const WRONG_PICTURES: [&str; 7] = [
    "0",
    "1048577",
    "2000000",
    "4294967295",
    "4294967297",
    "9223372036854775809",
    "18446744073709551615",
];

const SOME_CARDS: [&str; 4] = ["0", "117", "32GB", "18446744073709551615"];

#[test]
fn shots_of_0_or_above_60_are_16_whatever_the_picture() {
    let folder = Folder::new();
    for shots in WRONG_SHOTS {
        let count: u64 = shots.parse().unwrap();
        let said = format!("a full burst has 1 to 60 shots: {count} are asked for\n");
        for bytes in SOME_CARDS {
            for picture in WRONG_PICTURES.iter().chain(&["1", "1048576"]) {
                let run = card(&folder, [bytes, shots, picture]);
                let run = run.refused(16, &[&said, "Give as --shots the shots of one burst"]);
                assert_eq!(run.out, "", "{bytes} {shots} {picture}");
            }
        }
    }
}

#[test]
fn a_picture_of_0_or_above_1048576_bytes_is_10() {
    let folder = Folder::new();
    for picture in WRONG_PICTURES {
        let said = format!("a picture has 1 to 1,048,576 bytes: each is to have {picture}\n");
        for bytes in SOME_CARDS {
            for shots in ["1", "2", "59", "60"] {
                let run = card(&folder, [bytes, shots, picture]);
                let run = run.refused(10, &[&said, "Give as --picture the bytes of one"]);
                assert_eq!(run.out, "", "{bytes} {shots} {picture}");
                assert!(!run.err.contains("drop"), "{}", run.err);
            }
        }
    }
}

/// A line of `card` that is right.
const CARD: &str = "card --bytes 32G --shots 10 --picture 5";

/// What is put in place of a part of that line, and what is said then.
const WRONG_CARD: [(&str, &str, &str); 22] = [
    ("--bytes 32G ", "", "--bytes is missing"),
    ("--shots 10 ", "", "--shots is missing"),
    (" --picture 5", "", "--picture is missing"),
    ("--shots", "--bytes 32G --shots", "--bytes is given twice"),
    ("--shots", "--shots 10 --shots", "--shots is given twice"),
    ("--shots", "--picture 5 --shots", "--picture is given twice"),
    ("--bytes", "--bytes 32 --bytes", "--bytes is given twice"),
    (
        "32G",
        "32 G",
        "G stands alone; --bytes N --shots S --picture P",
    ),
    ("32G", "32 G", "with no space before a unit"),
    ("--bytes 32G", "32G", "32G stands alone"),
    (" 5", " 5 -", "- stands alone"),
    ("32G ", "", "--bytes wants N, and finds --shots"),
    ("10 ", "", "--shots wants S, and finds --picture"),
    (" 5", "", "--picture wants P after it"),
    (
        "--bytes 32G",
        "--bytes=32G",
        "there is no option --bytes=32G",
    ),
    ("--shots", "--key key --shots", "there is no option --key"),
    ("10", "-1", "--shots wants decimal digits, not `-1`"),
    ("10", "", "--shots wants decimal digits, not ``"),
    ("5", "5K", "--picture wants decimal digits, not `5K`"),
    ("5", "+5", "--picture wants decimal digits, not `+5`"),
    // Cut to 64 bits, they would be 1.
    (
        "10",
        "18446744073709551617",
        "--shots 18446744073709551617 is above 18446744073709551615",
    ),
    (
        "5",
        "18446744073709551617",
        "--picture 18446744073709551617 is above 18446744073709551615",
    ),
];

#[test]
fn wrong_command_lines_of_card_are_64() {
    let folder = Folder::new();
    for (part, other, words) in WRONG_CARD {
        let line = CARD.replacen(part, other, 1);
        let run = folder.say(&line).failed(64, &[words, "--help` shows"]);
        assert_eq!(run.out, "", "{line}");
    }
    folder.check_nothing_new();
    folder.say(CARD).done();
}

#[test]
fn wrong_lines_of_card_show_words_filtered() {
    let folder = Folder::new();
    for line in [
        "card EVIL",
        "card --EVIL",
        "card --bytes EVIL --shots 5 --picture 5",
        "card --bytes 5EVIL --shots 5 --picture 5",
        "card --bytes 5 --shots EVIL --picture 5",
        "card --bytes 5 --shots 5 --picture EVIL",
    ] {
        check_shown(names::say(&folder, line), 64, line);
    }
}

#[test]
fn help_names_card_and_its_status() {
    let folder = Folder::new();
    let help = folder.say("--help").done();
    assert!(help.contains("\n  burst card "), "{help}");
    let status = help.lines().any(|line| line.starts_with("  16  "));
    assert!(status, "{help}");
    let own = folder.say("card --help").done();
    assert!(own.starts_with("burst card "), "{own}");
    assert_eq!(own, folder.say("card -h").done());
}

#[test]
fn help_of_card_tells_what_a_user_may_trip_over() {
    let help = Folder::new().say("card --help").done();
    for words in [
        "32G counts bursts that it does not hold",
        "What a file system takes is not in the count",
        "Each file also takes the whole of\nits last cluster",
        "refused with 16, and else a length",
    ] {
        assert!(help.contains(words), "{words}: {help}");
    }
    assert!(help.lines().all(|line| line.len() <= 90), "{help}");
}

#[test]
fn the_example_and_the_numbers_of_the_help_of_card_are_right() {
    let folder = Folder::new();
    let help = folder.say("card --help").done();
    let words = "card --bytes 32GB --shots 10 --picture 250000";
    let out = folder.say(words).done();
    let example = format!("\n  $ burst {words}\n  {out}");
    assert!(help.ends_with(&example), "{help}");
    let help = help.replace(',', "");
    for bytes in ["32G", "32GB"] {
        let said = format!(" {bytes} is {} bytes\n", card_bytes(&folder, bytes));
        assert!(help.contains(&said), "{said}{help}");
    }
}

#[test]
fn the_help_of_card_names_every_unit() {
    let help = Folder::new().say("card --help").done();
    for (unit, bytes) in UNITS.into_iter().skip(1) {
        let power = match bytes % 1_000 {
            0 => ["powers of 1000"; 2],
            _ => ["powers of 1024", "the same"],
        };
        let found = help.lines().any(|line| {
            let named = line.split(' ').any(|word| word == unit);
            named && power.iter().any(|words| line.contains(words))
        });
        assert!(found, "{unit}: {help}");
    }
}
