//! Record, list, check and fetch give back what went in.

use crate::folder::{picture, Folder, Run, EDITIONS, EDITION_2, NOTE, SITE_MARK, STAMP};
use std::fs;
use std::io::Write;
use std::process::Stdio;

/// What is shown of the worked files, of edition 1 and then of edition 2: the
/// lines of list, what it says on standard error, and the camera by check.
const SHOWN: [(&str, &str, &str); 2] = [
    (
        "burst 7\ntaken 3 kept 1 dropped 2\nshot 2 at 32 length 3\n",
        "",
        "none: the file is of edition 1",
    ),
    (
        "burst 7\ntaken 3 kept 1 dropped 2\nshot 2 at 40 length 3\n",
        NOTE,
        "3",
    ),
];

#[test]
fn the_worked_file_of_edition_2_is_recorded() {
    let folder = Folder::new();
    let out = folder
        .record(&["--drop", "--keep", STAMP, "fox", "--drop"])
        .done();
    assert_eq!(
        out,
        "burst 7 camera 3 taken 3 kept 1 dropped 2 to out.burst, 119 bytes\n"
    );
    assert_eq!(folder.get("out.burst"), EDITION_2.file);
    assert_eq!(folder.names("."), ["7.burst", "fox", "key", "out.burst"]);
}

#[test]
fn the_worked_files_are_listed() {
    for (worked, (lines, note, _)) in EDITIONS.iter().zip(SHOWN) {
        let run = Folder::of(worked).say("list 7.burst");
        assert_eq!(run.noted(note), lines);
    }
}

#[test]
fn the_worked_files_are_checked() {
    for (worked, (_, _, camera)) in EDITIONS.iter().zip(SHOWN) {
        let out = Folder::of(worked).say("check --key key 7.burst").done();
        let counts = "taken 3 kept 1 dropped 2";
        let expected = format!("burst 7\nsite mark {SITE_MARK}\n{counts}\ncamera {camera}\n");
        assert_eq!(out, expected);
    }
}

#[test]
fn the_worked_pictures_are_fetched() {
    for worked in &EDITIONS {
        let folder = Folder::of(worked);
        let out = folder
            .say("fetch --key key --place 0 --out picture 7.burst")
            .done();
        assert_eq!(folder.get("picture"), b"fox");
        assert!(out.starts_with("shot 2 place 0 length 3 stamp "), "{out}");
        assert!(out.ends_with(&format!(" {STAMP} to picture\n")), "{out}");
        assert_eq!(folder.names("."), ["7.burst", "fox", "key", "picture"]);
        folder.say("fetch --key key --all all 7.burst").done();
        assert_eq!(folder.get("all/shot-002"), b"fox");
    }
}

#[test]
fn a_file_is_read_from_standard_input() {
    for (worked, (lines, note, _)) in EDITIONS.iter().zip(SHOWN) {
        let folder = Folder::of(worked);
        let mut command = folder.command(&["list", "-"]);
        command.stdin(Stdio::piped()).stdout(Stdio::piped());
        let mut tool = command.stderr(Stdio::piped()).spawn().unwrap();
        tool.stdin.take().unwrap().write_all(worked.file).unwrap();
        let run = Run::of(tool.wait_with_output().unwrap());
        assert_eq!(run.noted(note), lines);
    }
}

/// The list stands without it.
#[test]
fn a_camera_number_that_cannot_be_told_is_left_out() {
    let folder = Folder::new();
    let mut command = folder.command(&["list", "7.burst"]);
    let full = fs::OpenOptions::new()
        .write(true)
        .open("/dev/full")
        .unwrap();
    let run = Run::of(command.stderr(full).output().unwrap());
    assert_eq!(run.done(), SHOWN[1].0);
}

/// Records pictures of these lengths, 0 for a drop, and fetches them all.
fn there_and_back(lengths: &[usize]) {
    let folder = Folder::new();
    let (mut shots, mut expected) = (Vec::new(), String::new());
    let (mut names, mut place) = (Vec::new(), 0);
    for (shot, length) in (1..).zip(lengths) {
        if *length == 0 {
            shots.push("--drop".to_string());
            expected += &format!("shot {shot} dropped\n");
            continue;
        }
        let name = format!("picture{shot}");
        folder.put(&name, &picture(*length, shot));
        shots.extend(["--keep".into(), format!("stamp {shot:02}"), name.clone()]);
        let digits: String = format!("{shot:02}")
            .bytes()
            .map(|digit| format!("{digit:02X}"))
            .collect();
        let stamp = format!("\"stamp {shot:02}\" hex:7374616D7020{digits}0000000000000000");
        expected += &format!(
            "shot {shot} place {place} length {length} stamp {stamp} to all/shot-{shot:03}\n"
        );
        names.push((name, format!("shot-{shot:03}")));
        place += 1;
    }
    let shots: Vec<&str> = shots.iter().map(String::as_str).collect();
    folder.record(&shots).done();
    let out = folder.say("fetch --key key --all all out.burst").done();
    assert_eq!(out, expected);
    for (given, fetched) in &names {
        let fetched = folder.get(&format!("all/{fetched}"));
        assert!(folder.get(given) == fetched, "{given} of {lengths:?}");
    }
    assert_eq!(folder.names("all").len(), names.len());
}

#[test]
fn bursts_come_back() {
    there_and_back(&[1]);
    there_and_back(&[0, 1, 0, 127, 128, 129, 0]);
    there_and_back(&[1_048_576, 0, 5]);
    there_and_back(&[0, 0, 0]);
    there_and_back(&[7; 60]);
}

#[test]
fn one_of_several_places_is_fetched() {
    let folder = Folder::new();
    folder.put("owl", b"owls");
    folder
        .record(&["--keep", "a", "fox", "--drop", "--keep", "b", "owl"])
        .done();
    folder
        .say("fetch --key key --place 1 --out second out.burst")
        .done();
    assert_eq!(folder.get("second"), b"owls");
}

#[test]
fn an_empty_burst_has_72_bytes_and_no_picture() {
    let folder = Folder::new();
    folder.record(&[]).done();
    assert_eq!(folder.get("out.burst").len(), 72);
    let listed = folder.say("list out.burst").noted(NOTE);
    assert_eq!(listed, "burst 7\ntaken 0 kept 0 dropped 0\n");
    assert_eq!(folder.say("fetch --key key --all all out.burst").done(), "");
    assert!(folder.names("all").is_empty());
}

#[test]
fn the_burst_number_has_64_bits() {
    let folder = Folder::new();
    let number = u64::MAX;
    folder
        .say(&format!(
            "record --key key --number {number} --camera 3 --site-mark x --out out.burst --drop"
        ))
        .done();
    let out = folder.say("check --key key out.burst").done();
    assert!(out.starts_with("burst 18446744073709551615\n"), "{out}");
}

/// The file of a camera's burst 7, in which all else is as in another camera's.
fn file_of_camera(folder: &Folder, camera: &str) -> Vec<u8> {
    let front = "record --key key --number 7 --site-mark x --out out.burst --force";
    let shots = "--keep x fox --drop --keep y fox";
    folder
        .say(&format!("{front} --camera {camera} {shots}"))
        .done();
    folder.get("out.burst")
}

#[test]
fn the_camera_number_has_32_bits() {
    let folder = Folder::new();
    for camera in ["1", "256", "16909060", "4294967295"] {
        let file = file_of_camera(&folder, camera);
        let number: u32 = camera.parse().unwrap();
        assert_eq!(file[32..36], number.to_le_bytes());
        let line = format!("camera {camera}\n");
        folder.say("list out.burst").noted(&line);
        let checked = folder.say("check --key key out.burst").done();
        assert!(checked.ends_with(&format!("\n{line}")), "{checked}");
        let drawn = folder.say("explain out.burst").done();
        let line = format!("|   camera {camera}, four zeros ");
        assert!(drawn.contains(&line), "{drawn}");
    }
}

/// Each has its own sealed bytes, in records and closing seal.
#[test]
fn two_cameras_may_share_key_and_burst_number() {
    let folder = Folder::new();
    let files = ["3", "4"].map(|camera| file_of_camera(&folder, camera));
    let seals = [40..59, 75..94, 134..150];
    for sealed in seals.clone() {
        let [ours, theirs] = &files;
        assert_ne!(ours[sealed.clone()], theirs[sealed]);
    }
    assert_eq!(files[0], file_of_camera(&folder, "3"));
    assert_eq!(files[0].len(), seals[2].end + 16);
}

#[test]
fn a_file_of_65536_bytes_is_listed_and_one_more_is_too_long() {
    let folder = Folder::new();
    for (length, status) in [(65_536, 0), (65_537, 65)] {
        folder.put("large", &picture(length - 72 - 32 - 12, 1));
        folder.record(&["--force", "--keep", "x", "large"]).done();
        assert_eq!(folder.get("out.burst").len(), length);
        let run = folder.say("list out.burst");
        assert_eq!(run.status, status, "{}", run.err);
        if status == 0 {
            let out = run.noted(NOTE);
            assert!(out.ends_with("shot 1 at 40 length 65420\n"), "{out}");
        } else {
            assert_eq!(run.out, "front too long\n");
            run.failed(65, &["65,536 bytes", "burst explain"]);
        }
    }
}

#[test]
fn progress_is_for_terminals_only() {
    let folder = Folder::new();
    folder.put("large", &picture(1_048_576, 1));
    let shots = ["--keep", "x", "large"].repeat(5);
    // `done` wants nothing on standard error.
    folder.record(&shots).done();
    folder.say("check --key key out.burst").done();
    folder.say("fetch --key key --all all out.burst").done();
}
