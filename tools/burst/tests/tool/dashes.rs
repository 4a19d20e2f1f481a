//! A dash in place of a file: standard input or standard output, once each.

use crate::folder::{key, unread, Folder, Run, EDITION_2, SITE_MARK, STAMP};
use std::fs;
use std::process::{Output, Stdio};

/// The tool's line with these bytes on standard input.
fn with_input(folder: &Folder, line: &str, input: &[u8]) -> Output {
    folder.put("input", input);
    let file = fs::File::open(folder.path().join("input")).unwrap();
    fs::remove_file(folder.path().join("input")).unwrap();
    let mut command = folder.command(&line.split(' ').collect::<Vec<_>>());
    command.stdin(file).output().unwrap()
}

#[test]
fn every_input_can_be_standard_input() {
    let record = format!(
        "record --key key --number 7 --camera 3 --site-mark {SITE_MARK} --out out \
         --drop --keep {STAMP} fox --drop"
    );
    let burst = EDITION_2.file;
    for (line, name, input) in [
        ("list 7.burst", "7.burst", burst),
        ("explain 7.burst", "7.burst", burst),
        ("check --key key 7.burst", "7.burst", burst),
        ("check --key key 7.burst", "key", &key()),
        (
            "fetch --key key --place 0 --out out 7.burst",
            "7.burst",
            burst,
        ),
        ("fetch --key key --place 0 --out out 7.burst", "key", &key()),
        (&record, "key", &key()),
        (&record, "fox", b"fox"),
    ] {
        let folder = Folder::new();
        let expected = folder.say(line);
        let written = line.contains("--out").then(|| folder.get("out"));
        let _ = fs::remove_file(folder.path().join("out"));
        let dashed = line.replace(&format!(" {name}"), " -");
        fs::remove_file(folder.path().join(name)).unwrap();
        let run = Run::of(with_input(&folder, &dashed, input));
        assert_eq!(run.noted(&expected.err), expected.out, "{dashed}");
        if let Some(written) = written {
            assert_eq!(folder.get("out"), written, "{dashed}");
        }
    }
}

#[test]
fn standard_input_is_read_once() {
    let folder = Folder::new();
    for line in [
        "check --key - -",
        "fetch --key - --place 0 --out out -",
        "fetch --key - --all all -",
        "record --key - --number 7 --camera 3 --site-mark x --out out --keep x -",
        "record --key key --number 7 --camera 3 --site-mark x --out out --keep x - --keep x -",
    ] {
        let run = Run::of(with_input(&folder, line, &key()));
        run.failed(64, &["standard input, which is read once"]);
        folder.check_nothing_new();
    }
}

#[test]
fn messages_name_standard_input() {
    let folder = Folder::new();
    for (line, status, words) in [
        ("check --key - 7.burst", 1, "not 16 bytes: standard input"),
        ("check --key key -", 12, "rule is broken: standard input"),
        (
            "record --key key --number 7 --camera 3 --site-mark x --out out --keep x -",
            10,
            "shot 1 (standard input)",
        ),
    ] {
        Run::of(with_input(&folder, line, b"")).refused(status, &[words]);
    }
    let mut command = folder.command(&["check", "--key", "key", "-"]);
    let here = fs::File::open(folder.path()).unwrap();
    let run = Run::of(command.stdin(here).output().unwrap());
    run.failed(74, &["cannot read standard input: "]);
}

#[test]
fn a_file_can_go_to_standard_output() {
    let folder = Folder::new();
    let output = folder
        .command(&[
            "fetch", "--key", "key", "--place", "0", "--out", "-", "7.burst",
        ])
        .output()
        .unwrap();
    assert_eq!(
        (output.status.code(), &output.stdout[..]),
        (Some(0), &b"fox"[..])
    );
    let err = String::from_utf8(output.stderr).unwrap();
    assert!(err.starts_with("shot 2 place 0 length 3 stamp "), "{err}");
    assert!(err.ends_with(" to standard output\n"), "{err}");

    let front = format!("record --key key --number 7 --camera 3 --site-mark {SITE_MARK} --out -");
    let line = format!("{front} --drop --keep {STAMP} fox --drop");
    let output = with_input(&folder, &line, b"");
    assert_eq!(
        (output.status.code(), &output.stdout[..]),
        (Some(0), EDITION_2.file)
    );
    let err = String::from_utf8(output.stderr).unwrap();
    let said = "burst 7 camera 3 taken 3 kept 1 dropped 2 to standard output, 119 bytes\n";
    assert_eq!(err, said);
    folder.check_nothing_new();
}

#[test]
fn a_refused_file_gives_standard_output_nothing() {
    let folder = Folder::new();
    folder.put("7.burst", &EDITION_2.changed(50, 1));
    let run = folder.say("fetch --key key --place 0 --out - 7.burst");
    assert_eq!(run.refused(7, &[]).out, "");
    let front = "record --key key --number 7 --camera 3 --site-mark x --out -";
    let run = folder.say(&format!("{front} --keep hex:00 fox"));
    assert_eq!(run.refused(3, &[]).out, "");
}

#[test]
fn a_standard_output_that_takes_no_more_is_74() {
    let folder = Folder::new();
    let line = "fetch --key key --place 0 --out - 7.burst";
    let mut command = folder.command(&line.split(' ').collect::<Vec<_>>());
    let full = fs::OpenOptions::new()
        .write(true)
        .open("/dev/full")
        .unwrap();
    let run = Run::of(command.stdout(full).output().unwrap());
    run.failed(74, &["cannot write to standard output: ", "not whole"]);

    let mut command = folder.command(&line.split(' ').collect::<Vec<_>>());
    let run = Run::of(command.stdout(unread()).output().unwrap());
    assert_eq!((run.status, run.err.as_str()), (74, ""));
}

#[test]
fn no_folder_is_standard_output() {
    let folder = Folder::new();
    let run = folder.say("fetch --key key --all - 7.burst");
    run.failed(64, &["--all wants a folder", "./-"]);
    folder.check_nothing_new();
}

#[test]
fn files_and_folders_that_are_called_a_dash_have_another_name() {
    let folder = Folder::new();
    folder.put("-", EDITION_2.file);
    folder.say("check --key key ./-").done();
    let run = folder.say("fetch --key key --place 0 --out ./- 7.burst");
    run.failed(73, &["./- exists already"]);
    fs::remove_file(folder.path().join("-")).unwrap();
    folder.say("fetch --key key --all ./- 7.burst").done();
    assert_eq!(folder.names("-"), ["shot-002"]);
}

/// The far end of a terminal counts as one, too.
#[test]
fn a_terminal_gets_no_file() {
    let folder = Folder::new();
    let mut open = fs::OpenOptions::new();
    let Ok(terminal) = open.read(true).write(true).open("/dev/ptmx") else {
        return println!("no terminal can be made here");
    };
    for line in [
        "fetch --key key --place 0 --out - 7.burst",
        "record --key key --number 7 --camera 3 --site-mark x --out - --drop",
    ] {
        let mut command = folder.command(&line.split(' ').collect::<Vec<_>>());
        command.stdout(terminal.try_clone().unwrap());
        let run = Run::of(command.stderr(Stdio::piped()).output().unwrap());
        run.failed(73, &["standard output is a terminal"]);
    }
}
