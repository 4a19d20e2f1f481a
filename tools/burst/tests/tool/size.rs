//! Bursts sized up before the trigger.

use crate::folder::{picture, Folder};

/// Lengths, and what is said of them: taken, kept, dropped, bytes, P12 and P6.
type Plan = (Vec<&'static str>, [usize; 6]);

/// By document 01 and request N1. A file has 72 bytes, and 44 more beside each
/// picture. A seal is one P12, and one P6 for each block of 128 bytes and for the
/// secret number. A record has one associated block; the closing seal has those of
/// 40 bytes and 12 for each kept, and one empty block.
fn plans() -> Vec<Plan> {
    let mixed = vec!["0", "127", "-", "128", "129", "1048576", "0"];
    vec![
        (vec![], [0, 0, 0, 72, 1, 3]),
        (vec!["0"], [1, 0, 1, 72, 1, 3]),
        (vec!["-"], [1, 0, 1, 72, 1, 3]),
        (vec!["1"], [1, 1, 0, 117, 2, 3 + 3]),
        (vec!["127"], [1, 1, 0, 243, 2, 3 + 3]),
        (vec!["128"], [1, 1, 0, 244, 2, 3 + 3]),
        (vec!["129"], [1, 1, 0, 245, 2, 4 + 3]),
        (vec!["0129"], [1, 1, 0, 245, 2, 4 + 3]),
        (vec!["1048576"], [1, 1, 0, 1_048_692, 2, 8_194 + 3]),
        (mixed, [7, 4, 3, 1_049_208, 5, 3 + 3 + 4 + 8_194 + 3]),
        // Header and index have 124, 136, 256 and 268 bytes.
        (vec!["1"; 7], [7, 7, 0, 387, 8, 7 * 3 + 3]),
        (vec!["1"; 8], [8, 8, 0, 432, 9, 8 * 3 + 4]),
        (vec!["1"; 18], [18, 18, 0, 882, 19, 18 * 3 + 4]),
        (vec!["1"; 19], [19, 19, 0, 927, 20, 19 * 3 + 5]),
        (vec!["-"; 60], [60, 0, 60, 72, 1, 3]),
        (vec!["1"; 60], [60, 60, 0, 2_772, 61, 60 * 3 + 8]),
    ]
}

/// The lines without a time.
fn lines(numbers: [usize; 6]) -> String {
    let [taken, kept, dropped, bytes, p12, p6] = numbers;
    format!(
        "taken {taken} kept {kept} dropped {dropped}\nbytes {bytes}\n\
         P12 calls {p12}\nP6 calls {p6}\n"
    )
}

fn words<'a>(front: &[&'a str], lengths: &[&'a str]) -> Vec<&'a str> {
    [front, lengths].concat()
}

#[test]
fn bursts_are_sized_up() {
    let folder = Folder::new();
    for (lengths, numbers) in plans() {
        let out = folder.run(&words(&["size"], &lengths)).done();
        assert_eq!(out, lines(numbers), "{lengths:?}");
        let out = folder.run(&words(&["size", "--"], &lengths)).done();
        assert_eq!(out, lines(numbers), "{lengths:?}");
    }
    folder.check_nothing_new();
}

#[test]
fn the_largest_burst_is_sized_up() {
    let out = Folder::new()
        .run(&words(&["size"], &["1048576"; 60]))
        .done();
    let numbers = [60, 60, 0, 62_917_272, 61, 60 * 8_194 + 8];
    assert_eq!(out, lines(numbers));
}

/// The shots of `record` for these lengths, with their pictures put in place.
fn shots(folder: &Folder, lengths: &[&str]) -> Vec<String> {
    let mut shots = Vec::new();
    for length in lengths {
        let bytes = length.parse().unwrap_or(0);
        if bytes == 0 {
            shots.push("--drop".to_string());
            continue;
        }
        let name = format!("picture{bytes}");
        folder.put(&name, &picture(bytes, 1));
        shots.extend(["--keep", "x", &name].map(String::from));
    }
    shots
}

#[test]
fn the_bytes_are_those_of_the_file_that_is_then_recorded() {
    for (lengths, [.., bytes, _, _]) in plans() {
        let folder = Folder::new();
        let shots = shots(&folder, &lengths);
        let shots: Vec<&str> = shots.iter().map(String::as_str).collect();
        let sized = folder.run(&words(&["size"], &lengths)).done();
        let recorded = folder.record(&shots).done();
        assert_eq!(folder.get("out.burst").len(), bytes, "{lengths:?}");
        assert!(sized.contains(&format!("\nbytes {bytes}\n")), "{sized}");
        let (counts, _) = sized.split_once('\n').unwrap();
        assert!(recorded.contains(&format!(" {counts} to ")), "{recorded}");
    }
}

#[test]
fn more_than_60_shots_are_9_whatever_their_lengths() {
    let folder = Folder::new();
    for length in ["0", "-", "5", "1048577", "18446744073709551615"] {
        for count in [61, 62, 1_000] {
            let said =
                format!("the burst is full: {count} shots are planned, and 60 is the most\n");
            for front in [&["size"][..], &["size", "--measure"]] {
                let run = folder.run(&words(front, &vec![length; count]));
                let run = run.refused(9, &[&said, "Put at most 60 shots"]);
                assert_eq!(run.out, "");
            }
        }
    }
}

/// Cut to 32 bits, the last but one would be 5.
#[test]
fn a_length_above_1048576_is_10_with_its_shot() {
    let folder = Folder::new();
    for length in ["1048577", "2000000", "4294967301", "18446744073709551615"] {
        let said = format!("1 to 1,048,576 bytes: shot 3 is to have {length}\n");
        let advice = "Give a length of at most 1,048,576, or - for";
        for line in [
            "size 5 - L",
            "size --measure 5 0 L 1048578",
            "size 1048576 5 L L",
        ] {
            let run = folder.say(&line.replace('L', length));
            let run = run.refused(10, &[&said, advice]);
            assert_eq!(run.out, "", "{line}");
            assert!(!run.err.contains("--drop"), "{}", run.err);
        }
    }
    let mut sixty = ["5"; 60];
    sixty[59] = "1048577";
    let run = folder.run(&words(&["size"], &sixty));
    run.refused(10, &["shot 60 is to have 1048577\n"]);
}

/// The numbers in the line of the estimate: milliseconds, nanoseconds of a P6, runs,
/// and P6 in a run.
fn estimate(line: &str) -> [f64; 4] {
    let words = "estimate N ms on this machine: N ns a P6, the least of N runs of N";
    let found: Vec<&str> = line.split(' ').collect();
    assert_eq!(found.len(), words.split(' ').count(), "{line}");
    let mut numbers = Vec::new();
    for (word, found) in words.split(' ').zip(found) {
        match word {
            "N" => numbers.push(found.parse().unwrap_or_else(|_| panic!("{line}"))),
            _ => assert_eq!(word, found, "{line}"),
        }
    }
    numbers.try_into().unwrap()
}

#[test]
fn a_time_is_shown_where_it_is_measured_and_only_there() {
    let folder = Folder::new();
    for (lengths, numbers) in plans() {
        let [.., p12, p6] = numbers;
        let plain = folder.run(&words(&["size"], &lengths)).done();
        let out = folder.run(&words(&["size", "--measure"], &lengths)).done();
        let line = out.strip_prefix(&plain).unwrap_or_else(|| panic!("{out}"));
        let line = line.strip_suffix('\n').unwrap();
        let [milliseconds, nanoseconds, runs, p6_a_run] = estimate(line);
        assert!(nanoseconds > 0.0 && nanoseconds < 1e6, "{line}");
        assert!((1.0..=32.0).contains(&runs), "{line}");
        assert_eq!(p6_a_run, 8_196.0, "{line}");
        // Both times are rounded, to 0.001 ms and to 0.1 ns.
        let calls = (p6 + 2 * p12) as f64;
        let apart = (milliseconds * 1e6 - calls * nanoseconds).abs();
        assert!(apart <= 501.0 + 0.051 * calls, "{line}");
        assert!(!plain.contains("estimate") && plain.lines().count() == 4);
    }
}

#[test]
fn measure_stands_anywhere_before_two_dashes() {
    let folder = Folder::new();
    for line in [
        "size 5 --measure -",
        "size 5 - --measure",
        "size --measure -- 5 -",
    ] {
        let out = folder.say(line).done();
        assert!(out.starts_with(&lines([2, 1, 1, 121, 2, 6])), "{out}");
        assert!(out.contains("\nestimate "), "{out}");
    }
    let run = folder.say("size 5 -- - --measure");
    run.failed(64, &["LENGTH wants decimal digits, not `--measure`"]);
}

#[test]
fn the_example_of_the_help_of_size_is_what_it_prints() {
    let folder = Folder::new();
    let help = folder.say("size --help").done();
    let line = "size 250000 - 180000";
    let out = folder.say(line).done();
    assert_eq!(out, lines([3, 2, 1, 430_160, 3, 1_956 + 1_409 + 3]));
    let indented: String = out.lines().map(|line| format!("  {line}\n")).collect();
    let example = format!("\n  $ burst {line}\n{indented}");
    assert!(help.contains(&example), "{help}");
}
