//! Names and words from outside are shown without what a terminal would obey or
//! hide.

use crate::folder::{Folder, Run, EDITION_2};
use std::ffi::OsStr;
use std::fs;
use std::os::unix::ffi::OsStrExt;

/// A name that would colour the terminal, turn the direction of writing, begin a
/// line of its own, hide a letter and ring the bell; and how it is shown.
const EVIL: &str = "a\u{1b}[31m\u{202e}\nburst: done\u{200b}\u{7}b\u{9b}2J\\";
const SHOWN: &str = "a\\u{1b}[31m\\u{202e}\\nburst: done\\u{200b}\\u{7}b\\u{9b}2J\\\\";

/// The tool shows the name, and nothing that a terminal would obey.
pub(crate) fn check_shown(run: Run, status: i32, line: &str) {
    assert_eq!(run.status, status, "{line}: {}{}", run.out, run.err);
    let text = format!("{}{}", run.out, run.err);
    assert!(text.contains(SHOWN), "{line}: {text}");
    let printed = text.replace('\n', "");
    let hides = |letter: char| letter.is_control() || "\u{202e}\u{200b}".contains(letter);
    assert!(!printed.contains(hides), "{line}: {text:?}");
    assert!(!text.contains("\nburst: done"), "{line}: {text:?}");
}

/// Runs the line, in which `EVIL` stands for the name.
pub(crate) fn say(folder: &Folder, line: &str) -> Run {
    let words: Vec<String> = line
        .split(' ')
        .map(|word| word.replace("EVIL", EVIL))
        .collect();
    folder.run(&words.iter().map(String::as_str).collect::<Vec<_>>())
}

const RECORD: &str = "record --key key --number 7 --camera 3 --site-mark x --out out";

#[test]
fn wrong_lines_show_words_filtered() {
    let folder = Folder::new();
    for line in [
        "EVIL",
        "list --EVIL",
        "list 7.burst EVIL",
        "check --key --EVIL",
        "fetch --key key --place EVIL --out out 7.burst",
        "size 5 EVIL",
        "size --EVIL",
        &RECORD.replace(" 7", " EVIL"),
        &RECORD.replace(" 3", " EVIL"),
        &RECORD.replace(" x", " hex:EVIL"),
        &format!("{RECORD} EVIL"),
        &format!("{RECORD} --keep hex:EVIL fox"),
    ] {
        check_shown(say(&folder, line), 64, line);
    }
}

#[test]
fn names_of_inputs_are_filtered() {
    let folder = Folder::new();
    let lines = [
        "list EVIL",
        "explain EVIL",
        "check --key key EVIL",
        "check --key EVIL 7.burst",
        &format!("{RECORD} --keep x EVIL"),
        &format!("{RECORD} --drop").replace("--key key", "--key EVIL"),
    ];
    for line in lines {
        check_shown(say(&folder, line), 74, line);
    }
    folder.put(EVIL, b"");
    for (line, status) in lines.iter().zip([12, 12, 12, 1, 10, 1]) {
        check_shown(say(&folder, line), status, line);
    }
    let line = format!("{RECORD} --keep hex:00 EVIL");
    check_shown(say(&folder, &line), 3, &line);
    for at in [50, 100] {
        folder.put(EVIL, &EDITION_2.changed(at, 1));
        check_shown(say(&folder, "check --key key EVIL"), 7, "check");
    }
}

#[test]
fn names_of_outputs_are_filtered() {
    let folder = Folder::new();
    let record = RECORD.replace("out out", "out EVIL");
    let fetch = "fetch --key key --place 0 --out EVIL 7.burst";
    let all = "fetch --key key --all EVIL 7.burst";
    for line in [&record, fetch, all] {
        check_shown(say(&folder, &line.replace("EVIL", "none/EVIL")), 74, line);
    }
    for line in [&record, fetch] {
        check_shown(say(&folder, line), 0, line);
        check_shown(say(&folder, line), 73, line);
        check_shown(say(&folder, all), 73, all);
        fs::remove_file(folder.path().join(EVIL)).unwrap();
    }
    check_shown(say(&folder, all), 0, all);
    check_shown(say(&folder, all), 73, all);
    check_shown(say(&folder, fetch), 73, fetch);
}

#[test]
fn a_name_that_is_left_is_filtered() {
    let folder = Folder::new();
    fs::create_dir_all(folder.path().join("all").join(format!(".burst-{EVIL}"))).unwrap();
    let all = "fetch --key key --all all 7.burst";
    check_shown(say(&folder, all), 73, all);
}

/// Letters with accents, of one character or of two, are shown as they are.
#[test]
fn plain_names_are_shown_as_they_are() {
    let folder = Folder::new();
    for name in ["Höhle", "Ho\u{308}hle", "fox's picture", "狐", "a b"] {
        let run = folder.run(&["list", name]);
        run.failed(74, &[&format!("cannot read {name}: ")]);
    }
    let mut command = folder.command(&["list"]);
    let run = Run::of(command.arg(OsStr::from_bytes(b"\xff\"x")).output().unwrap());
    run.failed(74, &["cannot read \\xff\\\"x: "]);
}
