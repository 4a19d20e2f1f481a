//! Keys, stamps and site marks: the forms they are given in, and shown in.

use crate::folder::{Folder, EDITION_2, STAMP};

#[test]
fn a_key_file_holds_raw_bytes_or_hex_digits() {
    let folder = Folder::new();
    let forms: [&[u8]; 5] = [
        b"000102030405060708090A0B0C0D0E0F",
        b"000102030405060708090a0b0c0d0e0f\n",
        b"000102030405060708090A0b0C0d0E0f\r\n",
        b"\x00\x01\x02\x03\x04\x05\x06\x07\x08\x09\x0A\x0B\x0C\x0D\x0E\x0F",
        b"000102030405060708090A0B0C0D0E0F\r",
    ];
    for form in forms {
        folder.put("key", form);
        folder
            .record(&["--force", "--drop", "--keep", STAMP, "fox", "--drop"])
            .done();
        assert_eq!(folder.get("out.burst"), EDITION_2.file, "{form:?}");
        folder.say("check --key key out.burst").done();
    }
}

#[test]
fn sixteen_raw_bytes_are_a_key_also_where_they_are_digits() {
    let folder = Folder::new();
    folder.put("key", b"0123456789ABCDEF");
    folder.record(&["--drop"]).done();
    folder.put("key", b"30313233343536373839414243444546\n");
    folder.say("check --key key out.burst").done();
}

#[test]
fn a_key_on_the_command_line_is_taken_for_a_file() {
    let folder = Folder::new();
    let run = folder.say("check --key 000102030405060708090A0B0C0D0E0F 7.burst");
    run.failed(74, &["cannot read 000102030405060708090A0B0C0D0E0F"]);
}

/// The file of a burst with this site mark and stamp.
fn marked(folder: &Folder, site_mark: &str, stamp: &str) -> Vec<u8> {
    let front = "record --key key --number 1 --camera 3 --out out.burst --force";
    let rest = ["--site-mark", site_mark, "--keep", stamp, "fox"];
    let words: Vec<&str> = front.split(' ').chain(rest).collect();
    folder.run(&words).done();
    folder.get("out.burst")
}

#[test]
fn text_is_filled_up_with_zero_bytes() {
    let folder = Folder::new();
    let text = marked(&folder, "north ridge", "sixteen letters!");
    let hex = marked(
        &folder,
        "hex:6e6f7274682072696467650000000000",
        "hex:7369787465656E206C65747465727321",
    );
    assert_eq!(text, hex);
    let letter = marked(&folder, "a", "b");
    let hex = marked(
        &folder,
        "hex:61000000000000000000000000000000",
        "hex:62000000000000000000000000000000",
    );
    assert_eq!(letter, hex);
    assert_ne!(text, letter);
}

#[test]
fn marks_are_shown_as_text_where_they_are_text() {
    let folder = Folder::new();
    for (mark, shown) in [
        (
            "north ridge",
            "\"north ridge\" hex:6E6F7274682072696467650000000000",
        ),
        ("Höhle", "\"Höhle\" hex:48C3B6686C6500000000000000000000"),
        (
            "hex:00000000000000000000000000000000",
            "hex:00000000000000000000000000000000",
        ),
        // A terminal would obey these.
        ("\x1b[2J", "hex:1B5B324A000000000000000000000000"),
        (
            "hex:FFFE0000000000000000000000000000",
            "hex:FFFE0000000000000000000000000000",
        ),
        (
            "a\u{202E}b",
            "\"a\\u{202e}b\" hex:61E280AE620000000000000000000000",
        ),
    ] {
        marked(&folder, mark, "x");
        let out = folder.say("check --key key out.burst").done();
        assert_eq!(
            out.lines().nth(1),
            Some(format!("site mark {shown}").as_str())
        );
    }
}
