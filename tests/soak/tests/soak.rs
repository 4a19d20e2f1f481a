//! The soak meets every number that its calls can give, and a case that differs
//! ends it and is named.

use std::process::{Command, Output};

use soak::{run, try_case};

/// Every number of every call but 4, which takes data of 67,108,865 bytes where
/// no strip state counts them, and close's 11, which no list can meet that has
/// one buffer. List's 12 is the text `front 12`. Whole says of a script whether all
/// of it was performed, agrees of a round log whether every round does, and edition
/// which one a file has that check accepted, or 0.
const EXPECTED: [(&str, &[u32]); 21] = [
    ("agrees", &[0, 1]),
    ("begin", &[0, 1, 3, 11, 15]),
    ("check", &[0, 1, 5, 7, 12]),
    ("check_log", &[0, 19]),
    ("close", &[0, 8]),
    ("drop", &[0, 8, 9]),
    ("edition", &[0, 1, 2]),
    ("end", &[0, 5, 14]),
    ("fetch", &[0, 1, 5, 7, 12, 13]),
    ("keep", &[0, 3, 8, 9, 10, 11]),
    ("list", &[0, 5, 12]),
    ("open", &[0, 1, 2, 5, 6, 7]),
    ("open_in_place", &[0, 1, 2, 5, 6, 7]),
    ("record", &[0, 1, 7, 12, 13]),
    ("rounds_back", &[0, 5, 20]),
    ("rounds_forward", &[0, 5, 20]),
    ("seal", &[0, 1, 2, 3, 5]),
    ("size_up", &[0, 9, 10]),
    ("start", &[0, 1, 2, 3, 5]),
    ("strip", &[0, 4, 5, 14]),
    ("whole", &[0, 1]),
];

#[test]
fn every_number_comes() {
    let tally = run(7_000_000, 8_000, try_case).unwrap();
    let expected = EXPECTED
        .iter()
        .flat_map(|(call, numbers)| numbers.iter().map(|number| (*call, *number)));
    assert_eq!(tally.seen(), expected.collect::<Vec<_>>());
}

#[test]
fn case_that_differs_is_named() {
    let differs_at = |differs: u64| move |seed: u64, _: &mut _| assert_ne!(seed, differs);
    assert_eq!(run(100, 50, differs_at(149)).err(), Some(149));
    assert_eq!(run(u64::MAX, 2, differs_at(0)).err(), Some(0));
    assert!(run(100, 50, differs_at(150)).is_ok());
}

fn soak(words: &[&str]) -> Output {
    let program = env!("CARGO_BIN_EXE_soak");
    Command::new(program).args(words).output().unwrap()
}

#[test]
fn what_is_printed() {
    let output = soak(&["40", "12"]);
    assert_eq!(output.status.code(), Some(0));
    let text = String::from_utf8(output.stdout).unwrap();
    assert!(text.starts_with("seed 12, 40 cases\n"), "{text}");
    assert!(text.ends_with("\n40 cases, 0 differ\n"), "{text}");
}

#[test]
fn bad_arguments() {
    for words in [
        &[][..],
        &["x"],
        &["5", "-1"],
        &["5", "0x10"],
        &["1", "2", "3"],
    ] {
        assert_eq!(soak(words).status.code(), Some(2), "{words:?}");
    }
}
