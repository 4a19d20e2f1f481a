//! The program `lister` takes its input in pieces of any size, and ends on
//! every input.

use std::fs::File;
use std::process::Stdio;

use burst_calls::listing::{BROKEN, TOO_LONG};
use lister::program::{write_pieces, write_while_read};
use lister::stored::{all, folder, Stored};
use lister::LISTER;
use reference::burst::{Edition, EDITIONS, EDITION_2};

fn stored(edition: Edition, name: &str) -> Stored {
    let mut all = all().into_iter();
    all.find(|stored| (stored.edition, stored.name) == (edition, name))
        .unwrap()
}

#[test]
fn byte_by_byte() {
    for edition in EDITIONS {
        for name in ["example", "too_short", "last_dropped", "file_shorter"] {
            let stored = stored(edition, name);
            let printed = LISTER.printed_by(|input| write_pieces(input, &stored.file, 1));
            assert_eq!(printed, stored.text, "{}", stored.what());
        }
    }
}

#[test]
fn long_files_in_pieces() {
    for name in ["exactly_65536", "one_byte_too_long"] {
        let Stored { file, text, .. } = stored(EDITION_2, name);
        for length in [251, 4_095, 4_096, 4_097, 32_768, 65_535, 65_536] {
            let printed = LISTER.printed_by(|input| write_pieces(input, &file, length));
            assert_eq!(printed, text, "{name} in pieces of {length}");
        }
    }
}

/// The last byte alone, or the first.
#[test]
fn one_byte_apart() {
    for name in ["example", "exactly_65536", "one_byte_too_long"] {
        let Stored { file, text, .. } = stored(EDITION_2, name);
        for at in [1, file.len() - 1] {
            let (first, second) = file.split_at(at);
            let printed = LISTER.printed_by(|input| {
                write_pieces(input, first, first.len());
                write_pieces(input, second, second.len());
            });
            assert_eq!(printed, text, "{name} cut at {at}");
        }
    }
}

/// A file, not a pipe, on standard input.
#[test]
fn from_a_file() {
    for edition in EDITIONS {
        let path = folder(edition).join("sixty_shots.burst");
        let printed = LISTER.printed_from(File::open(path).unwrap().into());
        assert_eq!(printed, stored(edition, "sixty_shots").text);
    }
}

#[test]
fn empty_input() {
    assert_eq!(LISTER.printed(&[]), BROKEN);
    assert_eq!(LISTER.printed_from(Stdio::null()), BROKEN);
}

/// Bytes after a right file of 65,536 bytes make it too long, however many.
#[test]
fn bytes_after_the_longest_file() {
    let mut file = stored(EDITION_2, "exactly_65536").file;
    file.push(0);
    assert_eq!(LISTER.printed(&file), TOO_LONG);
    file.resize(10_000_000, 0);
    let printed = LISTER.printed_by(|input| write_while_read(input, &file));
    assert_eq!(printed, TOO_LONG);
}

/// An input without an end: the program does not wait for one.
#[test]
fn endless_input() {
    let zeros = File::open("/dev/zero").unwrap();
    assert_eq!(LISTER.printed_from(zeros.into()), TOO_LONG);
}
