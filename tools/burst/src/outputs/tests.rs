//! Failures between the first file that is written and the last that is placed,
//! which cannot be brought about from outside, and rights that a shell cannot
//! give.

use super::{write_file, Folder, OneFile};
use crate::messages::Failure;
use crate::system::{access_list, rename_new, set_access_list};
use std::fs::{self, File, Permissions};
use std::io::ErrorKind;
use std::os::unix::fs::{MetadataExt, PermissionsExt};
use std::path::{Path, PathBuf};

/// A folder of its own, by name.
fn folder(name: &str) -> PathBuf {
    let name = format!("burst-outputs-{}-{name}", std::process::id());
    let folder = std::env::temp_dir().join(name);
    fs::create_dir(&folder).unwrap();
    folder
}

fn names(folder: &Path) -> Vec<String> {
    let entries = fs::read_dir(folder).unwrap();
    let mut names: Vec<String> = entries
        .map(|entry| entry.unwrap().file_name().into_string().unwrap())
        .collect();
    names.sort();
    names
}

/// The outputs with these files, each written and not yet placed.
fn written(folder: &Path, force: bool, names: &[&str]) -> Folder {
    let mut outputs = Folder::new(folder, force).ok().unwrap();
    for name in names {
        assert!(outputs.write(name, b"new").is_ok());
    }
    outputs
}

/// Three files are written, and the last one's hidden file is taken away, so
/// that two are placed before it fails.
fn fail_at_the_third(folder: &Path, force: bool) {
    let outputs = written(folder, force, &["a", "b", "c"]);
    fs::remove_file(outputs.hidden.join("c")).unwrap();
    assert!(outputs.place().is_err());
}

#[test]
fn placed_files_are_taken_back() {
    for force in [false, true] {
        let folder = folder("taken-back");
        fail_at_the_third(&folder, force);
        assert!(names(&folder).is_empty(), "{:?}", names(&folder));
        fs::remove_dir(&folder).unwrap();
    }
}

#[test]
fn replaced_files_come_back() {
    let folder = folder("come-back");
    for name in ["a", "c"] {
        fs::write(folder.join(name), name).unwrap();
    }
    fail_at_the_third(&folder, true);
    assert_eq!(names(&folder), ["a", "c"]);
    for name in ["a", "c"] {
        assert_eq!(fs::read(folder.join(name)).unwrap(), name.as_bytes());
    }
    fs::remove_dir_all(&folder).unwrap();
}

/// The texts of what is left, in which the last part of each path stands alone.
fn texts(left: Vec<Failure>, folder: &Path) -> Vec<String> {
    let front = format!("{}/", folder.display());
    let text = |failure: Failure| failure.problem().replace(&front, "");
    left.into_iter().map(text).collect()
}

/// Two of three are placed, one of them in place of an earlier file, and then
/// folders of their names stand in the way.
#[test]
fn what_cannot_be_taken_back_is_named() {
    let folder = folder("left");
    fs::write(folder.join("a"), "earlier").unwrap();
    let mut outputs = written(&folder, true, &["a", "b", "c"]);
    fs::remove_file(outputs.hidden.join("c")).unwrap();
    assert!(outputs.move_in().is_err());
    for name in ["a", "b"] {
        fs::remove_file(folder.join(name)).unwrap();
        fs::create_dir(folder.join(name)).unwrap();
    }
    let hidden = outputs.hidden.file_name().unwrap().to_owned();
    let hidden = hidden.to_str().unwrap();
    let is_folder = "Is a directory (os error 21)";
    let expected = [
        format!("cannot remove b: {is_folder}"),
        format!("cannot remove a: {is_folder}"),
        format!("cannot put back a: {is_folder}"),
        format!("cannot remove {hidden}: Directory not empty (os error 39)"),
    ];
    assert_eq!(texts(outputs.take_back(), &folder), expected);
    // It is not to be told again.
    outputs.placed = true;
    drop(outputs);
    assert_eq!(names(&folder), [hidden, "a", "b"]);
    let kept = folder.join(hidden).join("replaced-a");
    assert_eq!(fs::read(kept).unwrap(), b"earlier");
    fs::remove_dir_all(&folder).unwrap();
}

#[test]
fn a_replaced_file_that_cannot_be_removed_is_named() {
    let folder = folder("aside");
    fs::write(folder.join("a"), "earlier").unwrap();
    let mut outputs = written(&folder, true, &["a"]);
    assert!(outputs.move_in().is_ok());
    let aside = outputs.pictures[0].aside(&outputs.hidden);
    fs::remove_file(&aside).unwrap();
    fs::create_dir(&aside).unwrap();
    let left = texts(outputs.clean_up(), &outputs.hidden);
    assert_eq!(
        left[0],
        "cannot remove replaced-a: Is a directory (os error 21)"
    );
    assert!(left[1].ends_with("Directory not empty (os error 39)"));
    assert_eq!(left.len(), 2);
    outputs.placed = true;
    drop(outputs);
    fs::remove_dir_all(&folder).unwrap();
}

#[test]
fn a_hidden_file_that_cannot_be_removed_is_named() {
    let folder = folder("one");
    let mut one = OneFile::write(&folder.join("a"), b"new", false)
        .ok()
        .unwrap();
    fs::remove_file(&one.hidden).unwrap();
    // One that is gone already is no failure.
    assert!(one.take_back().is_empty());
    fs::create_dir(&one.hidden).unwrap();
    let left = texts(one.take_back(), &folder);
    let hidden = one.hidden.file_name().unwrap().to_str().unwrap();
    let expected = format!("cannot remove {hidden}: Is a directory (os error 21)");
    assert_eq!(left, [expected]);
    one.placed = true;
    drop(one);
    fs::remove_dir_all(&folder).unwrap();
}

/// So that of two runs into one folder, each of which found it empty, one at
/// least is refused.
#[test]
fn a_file_that_came_into_the_folder_meanwhile_stops_all() {
    let folder = folder("into");
    let outputs = written(&folder, false, &["a", "b"]);
    fs::write(folder.join(".other"), "other").unwrap();
    assert!(matches!(outputs.place(), Err(Failure::NotEmpty { .. })));
    assert_eq!(names(&folder), [".other"]);
    fs::remove_dir_all(&folder).unwrap();
}

#[test]
fn of_two_runs_into_a_new_folder_one_is_refused() {
    let above = folder("two");
    let all = above.join("all");
    let first = written(&all, false, &["a"]);
    let second = written(&all, false, &["b"]);
    assert!(first.place().is_ok());
    assert!(matches!(second.place(), Err(Failure::NotEmpty { .. })));
    assert_eq!(names(&above), ["all"]);
    assert_eq!(names(&all), ["a"]);
    fs::remove_dir_all(&above).unwrap();
}

#[test]
fn a_file_that_has_the_name_of_a_new_folder_meanwhile_stays() {
    let above = folder("file");
    let outputs = written(&above.join("all"), false, &["a"]);
    fs::write(above.join("all"), "other").unwrap();
    assert!(matches!(outputs.place(), Err(Failure::NotAFolder(_))));
    assert_eq!(names(&above), ["all"]);
    assert_eq!(fs::read(above.join("all")).unwrap(), b"other");
    fs::remove_dir_all(&above).unwrap();
}

#[test]
fn an_empty_folder_that_has_the_name_of_a_new_one_meanwhile_stays() {
    let above = folder("empty");
    let all = above.join("all");
    let outputs = written(&all, false, &["a"]);
    fs::create_dir(&all).unwrap();
    let inode = || fs::metadata(&all).unwrap().ino();
    let before = inode();
    // The rename itself finds it, and the last look before it.
    assert!(matches!(outputs.rename(), Err(Failure::Meanwhile(_))));
    assert!(matches!(outputs.place(), Err(Failure::Meanwhile(_))));
    assert_eq!(names(&above), ["all"]);
    assert_eq!((names(&all), inode()), (vec![], before));
    fs::remove_dir_all(&above).unwrap();
}

#[test]
fn a_file_that_came_meanwhile_is_not_replaced() {
    let folder = folder("meanwhile");
    let target = folder.join("a");
    let one = OneFile::write(&target, b"new", false).ok().unwrap();
    fs::write(&target, "other").unwrap();
    assert!(matches!(one.place(), Err(Failure::Exists(_))));
    assert_eq!(fs::read(&target).unwrap(), b"other");
    assert_eq!(names(&folder), ["a"]);
    // Neither by the rename itself, after the last look.
    fs::write(folder.join("b"), "new").unwrap();
    let renamed = rename_new(&folder.join("b"), &target);
    assert_eq!(renamed.unwrap_err().kind(), ErrorKind::AlreadyExists);
    assert_eq!(fs::read(&target).unwrap(), b"other");
    fs::remove_dir_all(&folder).unwrap();
}

/// A list of rights as Linux lays it out: the owner may read and write, user
/// 12345 may read, the group may do nothing. The mode shows 0640 for it.
const LIST: [u8; 44] = [
    2, 0, 0, 0, // version
    1, 0, 6, 0, 255, 255, 255, 255, // owner
    2, 0, 4, 0, 57, 48, 0, 0, // user 12345
    4, 0, 0, 0, 255, 255, 255, 255, // group
    16, 0, 4, 0, 255, 255, 255, 255, // mask
    32, 0, 0, 0, 255, 255, 255, 255, // others
];

#[test]
fn force_keeps_a_list_of_rights() {
    let folder = folder("list");
    let target = folder.join("a");
    fs::write(&target, "other").unwrap();
    let old = File::open(&target).unwrap();
    if let Err(error) = set_access_list(&old, Some(&LIST)) {
        println!("no lists of rights in {}: {error}", folder.display());
        return fs::remove_dir_all(&folder).unwrap();
    }
    let mode = || fs::metadata(&target).unwrap().permissions().mode() & 0o777;
    assert_eq!(mode(), 0o640);
    assert!(write_file(&target, b"new", true).is_ok());
    assert_eq!(fs::read(&target).unwrap(), b"new");
    assert_eq!(access_list(&target).unwrap().as_deref(), Some(&LIST[..]));
    assert_eq!(mode(), 0o640);

    // Without a list it gets none, and the mode is what it says.
    let file = File::open(&target).unwrap();
    set_access_list(&file, None).unwrap();
    fs::set_permissions(&target, Permissions::from_mode(0o604)).unwrap();
    assert!(write_file(&target, b"newer", true).is_ok());
    assert_eq!(access_list(&target).unwrap(), None);
    assert_eq!(mode(), 0o604);
    fs::remove_dir_all(&folder).unwrap();
}
