//! Command lines that are wrong, and help.

use crate::folder::{Folder, NOTE, SITE_MARK};

const COMMANDS: [&str; 6] = ["record", "list", "check", "fetch", "explain", "size"];

/// Wrong lines, and what is said of each.
const WRONG: [(&str, &str); 28] = [
    ("frobnicate", "there is no command `frobnicate`"),
    ("list", "the burst file is missing"),
    ("list 7.burst fox", "one file is wanted; fox is one more"),
    ("list --key key 7.burst", "there is no option --key"),
    ("list -x 7.burst", "there is no option -x"),
    ("check 7.burst", "--key is missing"),
    ("check --key", "--key wants FILE after it"),
    (
        "check --key --key 7.burst",
        "--key wants FILE, and finds --key",
    ),
    ("check --key key --key key 7.burst", "--key is given twice"),
    ("check --key=key 7.burst", "there is no option --key=key"),
    ("fetch --key key 7.burst", "either --place N --out FILE"),
    (
        "fetch --key key --place 0 7.burst",
        "either --place N --out",
    ),
    (
        "fetch --key key --place 0 --all all 7.burst",
        "either --place",
    ),
    (
        "fetch --key key --place 0 --out p --all all 7.burst",
        "either",
    ),
    (
        "fetch --key key --place -1 --out p 7.burst",
        "digits, not `-1`",
    ),
    (
        "fetch --key key --place +0 --out p 7.burst",
        "digits, not `+0`",
    ),
    (
        "fetch --key key --place x --out p 7.burst",
        "--place wants decimal",
    ),
    ("size fox", "LENGTH wants decimal digits, not `fox`"),
    ("size 3 - 0x3", "LENGTH wants decimal digits, not `0x3`"),
    ("size 1,048,576", "not `1,048,576`"),
    ("size 1.5", "not `1.5`"),
    ("size +3", "not `+3`"),
    // As a shell gives a variable that is not set.
    ("size 3 ", "LENGTH wants decimal digits, not ``"),
    ("size -3", "there is no option -3"),
    ("size -- -3", "not `-3`"),
    // Cut to 64 bits, it would be 0.
    (
        "size 18446744073709551616",
        "LENGTH 18446744073709551616 is above 18446744073709551615",
    ),
    ("size 3 --measure=1", "there is no option --measure=1"),
    ("size --key key 3", "there is no option --key"),
];

/// A line of `record` that is right, without shots.
const RECORD: &str = "record --key key --number 7 --camera 3 --site-mark x --out out.burst";

/// What is put in place of a part of that line, and what is said then.
const WRONG_RECORD: [(&str, &str, &str); 17] = [
    ("--out", "--number 8 --out", "--number is given twice"),
    (
        "--number 7",
        "--number 0x7",
        "--number wants decimal digits",
    ),
    ("7", "18446744073709551616", "is above 18446744073709551615"),
    ("--number 7 ", "", "--number is missing"),
    ("--out", "--camera 4 --out", "--camera is given twice"),
    (
        "--camera 3",
        "--camera 0x3",
        "--camera wants decimal digits",
    ),
    ("3", "4294967296", "--camera 4294967296 is above 4294967295"),
    // Cut to 64 or to 32 bits, it would be 3.
    ("3", "18446744073709551619", "is above 4294967295"),
    ("--camera 3 ", "", "--camera is missing"),
    (
        "--site-mark x",
        "--site-mark hex:zz",
        "--site-mark: hex: wants",
    ),
    ("--site-mark x ", "", "--site-mark is missing"),
    (" --out out.burst", "", "--out is missing"),
    (
        "--out",
        "fox --out",
        "a shot is --keep STAMP PICTURE or --drop",
    ),
    (
        "out.burst",
        "out.burst --keep x",
        "--keep wants PICTURE after it",
    ),
    (
        "--out",
        "--keep fox --out",
        "--keep wants PICTURE, and finds --out",
    ),
    ("--out", "--keep hex:0 fox --out", "pairs of hex digits"),
    (
        "--out",
        "--keep hex:0g fox --out",
        "the stamp of --keep: hex:",
    ),
];

#[test]
fn wrong_command_lines_are_64() {
    let folder = Folder::new();
    folder.run(&[]).failed(64, &["no command is given"]);
    for (line, words) in WRONG {
        let run = folder.say(line).failed(64, &[words, "--help` shows"]);
        assert_eq!(run.out, "", "{line}");
    }
    for (part, other, words) in WRONG_RECORD {
        let line = RECORD.replacen(part, other, 1);
        let run = folder.say(&line).failed(64, &[words, "--help` shows"]);
        assert_eq!(run.out, "", "{line}");
    }
    folder.check_nothing_new();
    folder.say(RECORD).done();
}

#[test]
fn help_names_every_command_and_status() {
    let folder = Folder::new();
    let help = folder.say("--help").done();
    assert_eq!(help, folder.say("-h").done());
    for command in COMMANDS {
        assert!(help.contains(&format!("\n  burst {command} ")), "{command}");
        let own = folder.run(&[command, "--help"]).done();
        assert!(own.starts_with(&format!("burst {command} ")), "{own}");
        assert_eq!(own, folder.run(&[command, "-h"]).done());
    }
    for status in [0, 1, 3, 7, 9, 10, 12, 13, 15, 64, 65, 73, 74] {
        let found = help
            .lines()
            .any(|line| line.starts_with(&format!("  {status:<2}  ")));
        assert!(found, "{status}");
    }
    assert!(help.lines().all(|line| line.len() <= 90), "{help}");
}

#[test]
fn help_tells_what_a_user_may_trip_over() {
    let folder = Folder::new();
    for (line, words) in [
        ("--help", "head -c 16 /dev/urandom > survey.key"),
        ("--help", "`chmod 600 survey.key`"),
        (
            "--help",
            "Cameras that share a key have different camera numbers",
        ),
        ("--help", "once only, whatever became of the first\n  burst"),
        (
            "--help",
            "write such files must\n  not share a key with each other",
        ),
        ("record --help", "the camera number, 1 to 4294967295"),
        ("list --help", "is told on standard error"),
        (
            "check --help",
            "camera number; a file of edition 1\nhas none",
        ),
        ("--help", "A dash in place of a file is standard input"),
        ("--help", "A file that is called - is ./-"),
        (
            "--help",
            "whole or not at all, also where INT, TERM, HUP or",
        ),
        (
            "--help",
            "KILL, the signals of a fault (ILL, TRAP, BUS, FPE, SEGV, SYS), 32 and 33",
        ),
        ("--help", "cannot remove it, it says so and names it"),
        ("--help", "hidden names, .burst-NUMBER-NUMBER"),
        ("--help", "rights of the old one"),
        (
            "fetch --help",
            "A KILL or a power cut may leave the hidden folder",
        ),
        (
            "fetch --help",
            "a failure to remove it, which is told with its name",
        ),
        ("fetch --help", "DIRECTORY is there and is not a folder"),
        ("--help", "the folder of --all is not empty (see --force)"),
        ("record --help", "text of 1 to 16 bytes"),
        ("record --help", "Empty text"),
        ("fetch --help", "is new or empty"),
        ("fetch --help", "73 if DIRECTORY is not\nempty"),
        ("check --help", "this record was changed; the key is right"),
        ("size --help", "0 or - for a shot whose picture\n"),
        (
            "size --help",
            "None at\n              all is a burst without shots",
        ),
        (
            "size --help",
            "this machine alone: a camera takes its own time",
        ),
    ] {
        let help = folder.say(line).done();
        assert!(help.contains(words), "{words}: {help}");
        assert!(help.lines().all(|line| line.len() <= 90), "{help}");
    }
}

#[test]
fn help_wins_over_the_rest_of_the_line() {
    let folder = Folder::new();
    let out = folder.say("record --key key --help").done();
    assert!(out.contains("--site-mark MARK"), "{out}");
}

#[test]
fn the_version_is_the_package_s() {
    let version = format!("burst {}\n", env!("CARGO_PKG_VERSION"));
    assert_eq!(Folder::new().say("--version").done(), version);
}

#[test]
fn names_with_dashes_stand_after_two_dashes() {
    let folder = Folder::new();
    folder.put("--force", &folder.get("7.burst"));
    folder.say("list -- --force").noted(NOTE);
    folder.say("list ./--force").noted(NOTE);
}

#[test]
fn the_example_of_the_help_works() {
    let folder = Folder::new();
    let help = folder.say("record --help").done();
    let stamp = "2024-05-01 06:12";
    assert!(
        help.contains(&format!("--drop --keep '{stamp}' fox.jpg --drop")),
        "{help}"
    );
    folder
        .record(&["--drop", "--keep", stamp, "fox", "--drop"])
        .done();
    let out = folder
        .say("fetch --key key --place 0 --out picture out.burst")
        .done();
    assert!(out.contains(&format!("stamp \"{stamp}\" hex:")), "{out}");
    let checked = folder.say("check --key key out.burst").done();
    assert!(checked.contains(SITE_MARK), "{checked}");
}
