//! The stored inputs and outputs of the program `lister`, of both editions: each
//! is what `lister::stored` says, and the program, burst_list and the reference
//! print what is stored. With LISTER_WRITE_STORED=1 they are written anew.

use std::collections::BTreeSet;
use std::fs;
use std::path::PathBuf;

use burst_calls::lent::check_same;
use burst_calls::listing::check_rooms;
use lister::stored::{all, folder, right};
use lister::LISTER;
use reference::burst::lister::list;
use reference::burst::{Edition, EDITIONS, EDITION_1, EDITION_2};

fn path(edition: Edition, name: &str, ending: &str) -> PathBuf {
    folder(edition).join(format!("{name}.{ending}"))
}

/// The bytes that are stored.
fn read(edition: Edition, name: &str, ending: &str) -> Vec<u8> {
    let path = path(edition, name, ending);
    fs::read(&path).unwrap_or_else(|error| panic!("{} cannot be read: {error}", path.display()))
}

/// The output that is stored.
fn read_text(edition: Edition, name: &str) -> String {
    String::from_utf8(read(edition, name, "txt")).unwrap()
}

fn write_if_asked() {
    if std::env::var("LISTER_WRITE_STORED").as_deref() != Ok("1") {
        return;
    }
    for stored in all() {
        fs::create_dir_all(folder(stored.edition)).unwrap();
        let path = |ending| path(stored.edition, stored.name, ending);
        fs::write(path("burst"), &stored.file).unwrap();
        fs::write(path("txt"), &stored.text).unwrap();
    }
}

/// Nothing but what `all` names is stored, and that byte for byte.
#[test]
fn made_anew() {
    write_if_asked();
    let mut expected = BTreeSet::new();
    for stored in all() {
        let (edition, name) = (stored.edition, stored.name);
        let file = read(edition, name, "burst");
        check_same(&file, &stored.file, &|| stored.what());
        assert_eq!(read_text(edition, name), stored.text, "{}", stored.what());
        let new = ["burst", "txt"].map(|ending| expected.insert(path(edition, name, ending)));
        assert_eq!(new, [true; 2], "{}", stored.what());
    }
    let mut found = BTreeSet::new();
    for edition in EDITIONS {
        let entries = fs::read_dir(folder(edition)).unwrap();
        found.extend(entries.map(|entry| entry.unwrap().path()));
    }
    assert_eq!(found, expected);
}

#[test]
fn program_prints_what_is_stored() {
    for stored in all() {
        let (edition, name) = (stored.edition, stored.name);
        let printed = LISTER.printed(&read(edition, name, "burst"));
        let text = read(edition, name, "txt");
        check_same(printed.as_bytes(), &text, &|| stored.what());
    }
}

#[test]
fn library_and_reference_print_what_is_stored() {
    for stored in all() {
        let (edition, name) = (stored.edition, stored.name);
        let file = read(edition, name, "burst");
        let text = read_text(edition, name);
        assert_eq!(list(&file), text, "{}", stored.what());
        check_rooms(&file, &text, &|| stored.what());
    }
}

/// A line with its record offset 8 bytes on.
fn moved(line: &str) -> String {
    let mut words: Vec<String> = line.split(' ').map(String::from).collect();
    if words[0] == "shot" {
        assert_eq!(words[2], "at");
        let offset: u32 = words[3].parse().unwrap();
        words[3] = (offset + 8).to_string();
    }
    words.join(" ")
}

/// The same shots have the same lines in both editions, but that each record of
/// edition 2 stands 8 bytes on.
#[test]
fn same_lines_in_both_editions() {
    for (name, ..) in right(EDITION_1) {
        let [old, new] = EDITIONS.map(|edition| read_text(edition, name));
        let moved: Vec<String> = old.lines().map(moved).collect();
        assert_eq!(moved, new.lines().collect::<Vec<_>>(), "{name}");
    }
}

/// The input and output that are stored with the program are the example's.
#[test]
fn example_of_the_program() {
    let stdin = include_bytes!("../../../crates/lister/stdin");
    let stdout = include_bytes!("../../../crates/lister/stdout");
    let [file, text] = ["burst", "txt"].map(|ending| read(EDITION_1, "example", ending));
    check_same(stdin, &file, &|| "stdin".into());
    check_same(stdout, &text, &|| "stdout".into());
}

#[test]
fn lengths() {
    for (name, lengths) in [
        ("example", [111, 119]),
        ("empty", [64, 72]),
        ("all_dropped", [64, 72]),
        ("exactly_65536", [65_536; 2]),
        ("one_byte_too_long", [65_537; 2]),
        ("too_short", [63, 71]),
    ] {
        let found = [EDITION_1, EDITION_2].map(|edition| read(edition, name, "burst").len());
        assert_eq!(found, lengths, "{name}");
    }
}
