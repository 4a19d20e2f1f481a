//! Output files: whole or not at all, and none replaced without --force.

use crate::folder::{picture, Folder, EDITION_2, STAMP};
use std::fs;
use std::os::unix::fs::{symlink, MetadataExt};

const FETCH: &str = "fetch --key key --place 0 --out picture 7.burst";

#[test]
fn an_existing_file_is_replaced_only_by_force() {
    let folder = Folder::new();
    folder.put("out.burst", b"earlier");
    folder.put("picture", b"earlier");
    let shots = ["--drop", "--keep", STAMP, "fox", "--drop"];
    let parts = ["exists already", "--force"];
    folder
        .record(&shots)
        .failed(73, &["out.burst", parts[0], parts[1]]);
    folder
        .say(FETCH)
        .failed(73, &["picture", parts[0], parts[1]]);
    assert_eq!(folder.get("out.burst"), b"earlier");
    assert_eq!(folder.get("picture"), b"earlier");

    folder.record(&[&shots[..], &["--force"]].concat()).done();
    folder.say(&format!("{FETCH} --force")).done();
    assert_eq!(folder.get("out.burst"), EDITION_2.file);
    assert_eq!(folder.get("picture"), b"fox");
    assert_eq!(
        folder.names("."),
        ["7.burst", "fox", "key", "out.burst", "picture"]
    );
}

#[test]
fn record_looks_for_an_existing_file_before_it_reads() {
    let folder = Folder::new();
    folder.put("out.burst", b"earlier");
    let run = folder.record(&["--keep", "x", "none"]);
    run.failed(73, &["out.burst exists already"]);
}

#[test]
fn a_refusal_leaves_an_earlier_file_also_by_force() {
    let folder = Folder::new();
    folder.put("picture", b"earlier");
    folder.put("7.burst", &EDITION_2.changed(50, 1));
    folder.say(&format!("{FETCH} --force")).refused(7, &[]);
    assert_eq!(folder.get("picture"), b"earlier");
}

#[test]
fn what_is_not_a_plain_file_is_not_replaced() {
    let folder = Folder::new();
    fs::create_dir(folder.path().join("picture")).unwrap();
    let run = folder.say(&format!("{FETCH} --force"));
    run.failed(73, &["picture is there and is not a plain file"]);
    fs::remove_dir(folder.path().join("picture")).unwrap();

    symlink("fox", folder.path().join("picture")).unwrap();
    let run = folder.say(&format!("{FETCH} --force"));
    run.failed(73, &["not a plain file"]);
    assert_eq!(folder.get("fox"), b"fox");
    assert_eq!(folder.names("."), ["7.burst", "fox", "key", "picture"]);
}

#[test]
fn files_that_cannot_be_read_are_74() {
    let folder = Folder::new();
    for (line, name) in [
        ("list none", "none"),
        ("explain none", "none"),
        ("check --key key none", "none"),
        ("check --key none 7.burst", "none"),
        ("check --key . 7.burst", "."),
        ("fetch --key key --all all none", "none"),
    ] {
        folder
            .say(line)
            .failed(74, &[&format!("cannot read {name}: ")]);
    }
    let run = folder.record(&["--keep", "x", "fox", "--keep", "x", "none"]);
    run.failed(74, &["cannot read none: "]);
    folder.check_nothing_new();
}

#[test]
fn a_missing_folder_is_74() {
    let folder = Folder::new();
    for (line, words) in [
        (
            FETCH.replace("picture", "no/picture"),
            "cannot write no/picture: ",
        ),
        (
            FETCH.replace("picture", ".."),
            ".. is there and is not a plain file",
        ),
        (
            "fetch --key key --all no/all 7.burst".into(),
            "cannot make no/all: ",
        ),
        (
            "fetch --key key --all fox/all 7.burst".into(),
            "cannot look at fox/all: ",
        ),
    ] {
        let status = if line.contains("..") { 73 } else { 74 };
        folder.say(&line).failed(status, &[words]);
        folder.check_nothing_new();
    }
}

#[test]
fn a_file_that_does_not_fit_leaves_nothing() {
    let folder = Folder::new();
    folder.put("fox", &picture(100_000, 1));
    let line = "record --key key --number 7 --camera 3 --site-mark x --out out.burst --keep x fox";
    let run = folder.say_short_of_room(8, line);
    run.failed(74, &["cannot write out.burst: "]);
    folder.check_nothing_new();

    folder
        .say(&line.replace("out.burst", "7.burst --force"))
        .done();
    folder
        .say_short_of_room(8, FETCH)
        .failed(74, &["cannot write picture: "]);
    folder.check_nothing_new();
}

#[test]
fn a_file_that_does_not_fit_leaves_the_earlier_one() {
    let folder = Folder::new();
    folder.put("large", &picture(100_000, 1));
    folder.put("out.burst", b"earlier");
    let line = "record --key key --number 7 --camera 3 --site-mark x --out out.burst";
    folder
        .say_short_of_room(8, &format!("{line} --force --keep x large"))
        .failed(74, &["cannot write out.burst: "]);
    assert_eq!(folder.get("out.burst"), b"earlier");
    assert_eq!(
        folder.names("."),
        ["7.burst", "fox", "key", "large", "out.burst"]
    );
}

/// A folder whose `7.burst` keeps three pictures, as shots 1, 3 and 4; the
/// second of them does not fit in 8 blocks.
fn three() -> Folder {
    let folder = Folder::new();
    folder.put("large", &picture(100_000, 1));
    let shots = [
        "--keep", "a", "fox", "--drop", "--keep", "b", "large", "--keep", "c", "fox",
    ];
    folder.record(&shots).done();
    let in_folder = |name| folder.path().join(name);
    fs::rename(in_folder("out.burst"), in_folder("7.burst")).unwrap();
    fs::remove_file(in_folder("large")).unwrap();
    folder
}

const ALL: &str = "fetch --key key --all all 7.burst";

#[test]
fn all_pictures_or_none() {
    let folder = three();
    let parts = ["cannot write all/shot-003: "];
    folder.say_short_of_room(8, ALL).failed(74, &parts);
    folder.check_nothing_new();

    fs::create_dir(folder.path().join("all")).unwrap();
    folder.say_short_of_room(8, ALL).failed(74, &parts);
    assert!(folder.names("all").is_empty());

    folder.put("all/other", b"stays");
    folder.put("all/shot-001", b"earlier");
    folder
        .say_short_of_room(8, &format!("{ALL} --force"))
        .failed(74, &parts);
    assert_eq!(folder.names("all"), ["other", "shot-001"]);
    assert_eq!(folder.get("all/shot-001"), b"earlier");
}

#[test]
fn all_pictures_go_to_a_new_or_an_empty_folder() {
    let folder = three();
    let pictures = ["shot-001", "shot-003", "shot-004"];
    folder.say(ALL).done();
    assert_eq!(folder.names("all"), pictures);
    fs::create_dir(folder.path().join("empty")).unwrap();
    let empty = |end| ALL.replace("--all all", &format!("--all empty{end}"));
    folder.say(&empty("/")).done();
    assert_eq!(folder.names("empty"), pictures);
    folder
        .say(&empty("/."))
        .failed(73, &["the folder empty is not empty"]);
}

/// What is not a folder stays as it is, also by force.
#[test]
fn all_pictures_to_what_is_not_a_folder_is_73() {
    let folder = Folder::new();
    symlink("nowhere", folder.path().join("link")).unwrap();
    symlink("fox", folder.path().join("to-fox")).unwrap();
    for name in ["fox", "fox/", "link", "to-fox"] {
        for force in ["", " --force"] {
            let line = format!("fetch --key key --all {name}{force} 7.burst");
            let words = format!(
                "{} is there and is not a folder",
                name.trim_end_matches('/')
            );
            folder.say(&line).failed(73, &[&words]);
        }
    }
    assert_eq!(folder.get("fox"), b"fox");
    assert_eq!(
        folder.names("."),
        ["7.burst", "fox", "key", "link", "to-fox"]
    );
}

/// A link to a folder, and the folder that one stands in, take pictures as they
/// are.
#[test]
fn a_folder_that_is_there_stays_the_one_it_is() {
    let folder = three();
    let pictures = ["shot-001", "shot-003", "shot-004"];
    let inode = |name: &str| fs::metadata(folder.path().join(name)).unwrap().ino();
    fs::create_dir(folder.path().join("empty")).unwrap();
    symlink("empty", folder.path().join("link")).unwrap();
    let before = inode("empty");
    folder.say(&ALL.replace("--all all", "--all link")).done();
    assert_eq!(
        (folder.names("empty"), inode("empty")),
        (pictures.map(String::from).to_vec(), before)
    );

    fs::create_dir(folder.path().join("here")).unwrap();
    let line = "fetch --key ../key --all . ../7.burst".split(' ');
    let mut command = folder.command(&line.collect::<Vec<_>>());
    let before = inode("here");
    let output = command
        .current_dir(folder.path().join("here"))
        .output()
        .unwrap();
    crate::folder::Run::of(output).done();
    assert_eq!(
        (folder.names("here"), inode("here")),
        (pictures.map(String::from).to_vec(), before)
    );
}

/// A picture would replace the last of these only; the others would stay beside
/// the pictures.
#[test]
fn a_folder_that_is_not_empty_is_73_and_stays_as_it_was() {
    for name in ["shot-002", ".hidden", "below", "shot-004"] {
        let folder = three();
        let all = folder.path().join("all");
        fs::create_dir(&all).unwrap();
        match name {
            "below" => fs::create_dir(all.join(name)).unwrap(),
            _ => folder.put(&format!("all/{name}"), b"of another burst"),
        }
        let parts = [
            "the folder all is not empty",
            "Name a new or an empty folder",
            "--force",
        ];
        let run = folder.say(ALL).failed(73, &parts);
        assert_eq!(run.out, "");
        assert_eq!(folder.names("all"), [name]);
        assert_eq!(folder.names("."), ["7.burst", "all", "fox", "key"]);
        if name != "below" {
            assert_eq!(folder.get(&format!("all/{name}")), b"of another burst");
        }
    }
}

#[test]
fn a_burst_without_pictures_wants_an_empty_folder_too() {
    let folder = Folder::new();
    folder.record(&["--drop"]).done();
    let line = "fetch --key key --all all out.burst";
    folder.say("fetch --key key --all all 7.burst").done();
    folder.say(line).failed(73, &["all is not empty"]);
    let out = folder.say(&format!("{line} --force")).done();
    assert_eq!(out, "shot 1 dropped\n");
    assert_eq!(folder.names("all"), ["shot-002"]);
}

#[test]
fn a_refused_file_is_told_before_a_folder_that_is_not_empty() {
    let folder = Folder::new();
    folder.put("7.burst", &EDITION_2.file[..110]);
    let run = folder.say("fetch --key key --all . 7.burst");
    run.refused(12, &[]);
    folder.check_nothing_new();
}

#[test]
fn force_writes_all_into_a_folder_that_is_not_empty() {
    let folder = three();
    fs::create_dir(folder.path().join("all")).unwrap();
    folder.put("all/shot-004", b"earlier");
    folder.put("all/shot-002", b"of a dropped shot, stays");
    folder.say(&format!("{ALL} --force")).done();
    assert_eq!(
        folder.names("all"),
        ["shot-001", "shot-002", "shot-003", "shot-004"]
    );
    assert_eq!(folder.get("all/shot-004"), b"fox");
    assert_eq!(folder.get("all/shot-002"), b"of a dropped shot, stays");

    fs::remove_file(folder.path().join("all/shot-003")).unwrap();
    fs::create_dir(folder.path().join("all/shot-003")).unwrap();
    folder.put("all/shot-001", b"earlier");
    let run = folder.say(&format!("{ALL} --force"));
    run.failed(73, &["all/shot-003 is there and is not a plain file"]);
    assert_eq!(folder.get("all/shot-001"), b"earlier");
}

#[test]
fn a_full_standard_output_is_74_and_the_file_stands() {
    let folder = Folder::new();
    let mut command = folder.command(&FETCH.split(' ').collect::<Vec<_>>());
    let full = fs::OpenOptions::new()
        .write(true)
        .open("/dev/full")
        .unwrap();
    let run = crate::folder::Run::of(command.stdout(full).output().unwrap());
    run.failed(74, &["cannot write to standard output: "]);
    assert_eq!(folder.get("picture"), b"fox");
}
