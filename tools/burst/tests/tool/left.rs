//! What a run cannot remove is told by name: here a hidden folder, since somebody
//! else has put a file into it.

use crate::folder::{Folder, Run, Shell};
use crate::interrupted::{check_all, hidden, many, stopped, ALL, NOTHING_NEW};
use std::fs;
use std::os::unix::process::ExitStatusExt;
use std::path::PathBuf;
use std::process::Output;

/// The one hidden folder of a run.
fn hidden_folder(folder: &Folder) -> PathBuf {
    let mut hidden = hidden(folder);
    assert_eq!(hidden.len(), 1, "{hidden:?}");
    hidden.remove(0)
}

/// A run into whose hidden folder another file comes, after which these signals
/// are sent to it, CONT the last of them.
fn disturbed(folder: &Folder, other: &str, signals: &[&str]) -> Output {
    let tool = stopped(folder);
    fs::write(hidden_folder(folder).join(other), "other").unwrap();
    for signal in signals {
        Shell::waiting(&format!("kill -{signal} {}", tool.id())).go();
    }
    tool.wait_with_output().unwrap()
}

/// The words on a hidden folder that stays.
fn words(folder: &Folder) -> String {
    let hidden = hidden_folder(folder);
    let name = hidden.file_name().unwrap().to_str().unwrap();
    format!("{name}: Directory not empty")
}

#[test]
fn a_hidden_folder_that_stays_is_told_where_all_is_placed() {
    let folder = many();
    fs::create_dir(folder.path().join("all")).unwrap();
    let run = Run::of(disturbed(&folder, "other", &["CONT"]));
    let lines = [format!("cannot remove all/{}", words(&folder))];
    let run = run.failed(0, &[&lines[0], "remove it"]);
    assert!(run.out.starts_with("shot 1 place 0 "), "{}", run.out);
    let hidden = hidden_folder(&folder);
    assert_eq!(fs::read(hidden.join("other")).unwrap(), b"other");

    let name = hidden.file_name().unwrap().to_str().unwrap();
    let parts = ["could not clean up", name];
    folder.say(ALL).failed(73, &parts);
    fs::remove_dir_all(hidden).unwrap();
    check_all(&folder);
}

/// The file has the name of the last picture, which so cannot be written.
#[test]
fn a_hidden_folder_that_stays_is_told_where_nothing_is_written() {
    let folder = many();
    let run = Run::of(disturbed(&folder, "shot-040", &["CONT"]));
    let lines = [format!("cannot remove ./{}", words(&folder))];
    let run = run.failed(74, &[&lines[0], "cannot write all/shot-040: "]);
    let claims = run.err.contains("No output file was written");
    assert!(!claims, "{}", run.err);
    let hidden = hidden_folder(&folder);
    assert_eq!(fs::read(hidden.join("shot-040")).unwrap(), b"other");
    fs::remove_dir_all(hidden).unwrap();
    assert_eq!(folder.names("."), NOTHING_NEW);
}

#[test]
fn a_hidden_folder_that_stays_is_told_where_a_signal_ends_the_run() {
    let folder = many();
    let output = disturbed(&folder, "other", &["USR1", "CONT"]);
    assert_eq!(output.status.signal(), Some(10));
    let err = String::from_utf8(output.stderr).unwrap();
    let line = format!("burst: cannot remove ./{}", words(&folder));
    assert!(err.starts_with(&line), "{err}");
    fs::remove_dir_all(hidden_folder(&folder)).unwrap();
    assert_eq!(folder.names("."), NOTHING_NEW);
}
