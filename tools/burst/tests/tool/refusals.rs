//! Each refusal: its exit status, its message, and that nothing is written.

use crate::folder::{picture, Folder, EDITIONS, EDITION_2, STAMP};

#[test]
fn a_key_of_another_length_is_1() {
    let folder = Folder::new();
    let hex = "000102030405060708090A0B0C0D0E0F";
    let keys: [&[u8]; 7] = [
        b"",
        &[7; 15],
        &[7; 17],
        &hex.as_bytes()[..31],
        b"000102030405060708090A0B0C0D0E0G",
        b"000102030405060708090A0B0C0D0E0F\n\n",
        &[b'0'; 1_000],
    ];
    for key in keys {
        folder.put("key", key);
        let parts = ["the key is not 16 bytes: key", "32 hex digits"];
        folder.record(&["--drop"]).refused(1, &parts);
        folder.say("check --key key 7.burst").refused(1, &parts);
        folder
            .say("fetch --key key --place 0 --out picture 7.burst")
            .refused(1, &parts);
        folder
            .say("fetch --key key --all all 7.burst")
            .refused(1, &parts);
        folder.check_nothing_new();
    }
}

#[test]
fn a_site_mark_of_another_length_is_3() {
    let folder = Folder::new();
    for mark in ["seventeen letters", "hex:", "hex:00", &format!("{STAMP}00")] {
        let front = "record --key key --number 7 --camera 3 --out out.burst --drop --site-mark";
        let words: Vec<&str> = front.split(' ').chain([mark]).collect();
        folder.run(&words).refused(3, &["the site mark", "hex:"]);
        folder.check_nothing_new();
    }
}

#[test]
fn a_stamp_of_another_length_is_3_with_its_shot() {
    let folder = Folder::new();
    // 272 is 16 and 256: a length cut to one byte would pass.
    let long = "x".repeat(272);
    for stamp in ["seventeen letters", "hex:", "hex:0011", &long] {
        let run = folder.record(&["--drop", "--keep", stamp, "fox"]);
        run.refused(3, &["the stamp of shot 2 (fox)", "hex:"]);
        folder.check_nothing_new();
    }
}

/// As a shell gives it for a variable that is not set. Sixteen zero bytes can
/// still be given as hex digits.
#[test]
fn an_empty_site_mark_or_stamp_is_3() {
    let folder = Folder::new();
    let zeros = format!("hex:{}", "0".repeat(32));
    let record = |site_mark, stamp| {
        let front = "record --key key --number 7 --camera 3 --out out.burst";
        let rest = ["--site-mark", site_mark, "--keep", stamp, "fox"];
        folder.run(&front.split(' ').chain(rest).collect::<Vec<_>>())
    };
    for none in ["", "hex:"] {
        let parts = ["the site mark has 0", "text of 1 to 16 bytes"];
        record(none, "x").refused(3, &parts);
        record(none, none).refused(3, &parts);
        let parts = ["the stamp of shot 1 (fox) has 0", "text of 1 to 16 bytes"];
        record("x", none).refused(3, &parts);
        folder.check_nothing_new();
    }
    record(&zeros, &zeros).done();
}

/// After 1 and 3, and before what the shots are refused with.
#[test]
fn camera_number_0_is_15() {
    let folder = Folder::new();
    let record = |words: &str| folder.say(&format!("record --number 7 --out out.burst {words}"));
    for camera in ["0", "00"] {
        let right = format!("--camera {camera} --key key --site-mark x");
        for shots in ["--drop", "--keep hex:00 fox"] {
            let parts = [
                "the camera number is 0: --camera 0\n",
                "1 to 4294967295",
                "Cameras that share a key",
            ];
            record(&format!("{right} {shots}")).refused(15, &parts);
        }
        record(&right.replace(" x", " hex:00")).refused(3, &["the site mark has 1"]);
        record(&right.replace("key key", "key fox")).refused(1, &[]);
        folder.check_nothing_new();
    }
}

#[test]
fn shot_61_is_9() {
    let folder = Folder::new();
    let run = folder.record(&["--drop"; 61]);
    run.refused(9, &["shot 61", "at most 60"]);
    let sixty = ["--keep", "x", "fox"].repeat(60);
    let run = folder.record(&[&sixty[..], &["--keep", "x", "fox"]].concat());
    run.refused(9, &["shot 61 (fox)"]);
    let run = folder.record(&["--drop"; 200]);
    run.refused(9, &["shot 61"]);
    folder.check_nothing_new();
    folder.record(&sixty).done();
}

#[test]
fn a_picture_of_another_length_is_10_with_its_shot() {
    let folder = Folder::new();
    for length in [0, 1_048_577, 2_000_000] {
        folder.put("picture", &picture(length, 1));
        let run = folder.record(&["--keep", "x", "fox", "--drop", "--keep", "x", "picture"]);
        run.refused(10, &["shot 3 (picture)", "1,048,576 bytes", "--drop"]);
        std::fs::remove_file(folder.path().join("picture")).unwrap();
        folder.check_nothing_new();
    }
}

/// Check and fetch refuse the file alike, and write nothing.
fn check_refused(folder: &Folder, number: i32, parts: &[&str]) {
    for line in [
        "check --key key 7.burst",
        "fetch --key key --place 0 --out picture 7.burst",
        "fetch --key key --place 65536 --out picture 7.burst",
        "fetch --key key --all all 7.burst",
    ] {
        let run = folder.say(line).refused(number, parts);
        assert_eq!(run.out, "", "{line}");
    }
    folder.check_nothing_new();
}

#[test]
fn every_damaged_sealed_byte_is_7_and_leaves_no_output() {
    for worked in EDITIONS {
        let folder = Folder::of(&worked);
        let record = worked.header..worked.index();
        for at in record.clone().chain(worked.closing()..worked.file.len()) {
            folder.put("7.burst", &worked.changed(at, 1 << (at % 8)));
            let parts = match record.contains(&at) {
                true => RECORD_CHANGED,
                false => CLOSING_DIFFERS,
            };
            check_refused(&folder, 7, &parts);
        }
    }
}

/// The closing seal covers the camera number.
#[test]
fn another_camera_number_is_7_at_the_closing_seal() {
    let folder = Folder::new();
    for at in 32..36 {
        folder.put("7.burst", &EDITION_2.changed(at, 0x10));
        check_refused(&folder, 7, &CLOSING_DIFFERS);
    }
}

/// What is said under 7, of the record of shot 2 and of the closing seal.
const RECORD_CHANGED: [&str; 3] = [
    "a tag differs: that of the record of shot 2 of 7.burst\n",
    "The record of that shot was changed or damaged.",
    "It is not the key: the closing seal agrees under it.",
];
const CLOSING_DIFFERS: [&str; 3] = [
    "a tag differs: that of the closing seal of 7.burst\n",
    "The file was changed or damaged, or sealed under another key.",
    "Try the camera's own key",
];

#[test]
fn another_key_is_named_only_where_the_closing_seal_differs() {
    let folder = Folder::new();
    folder.put("7.burst", &EDITION_2.changed(EDITION_2.header, 1));
    let run = folder.say("check --key key 7.burst");
    let run = run.refused(7, &RECORD_CHANGED);
    assert!(!run.err.contains("another key"), "{}", run.err);
    assert!(!run.err.contains("own key"), "{}", run.err);

    // The record is damaged still; the closing seal comes first.
    folder.put("key", &[9; 16]);
    let run = folder.say("check --key key 7.burst");
    let run = run.refused(7, &CLOSING_DIFFERS);
    assert!(!run.err.contains("record of"), "{}", run.err);
}

#[test]
fn another_key_is_7_at_the_closing_seal() {
    let folder = Folder::new();
    folder.put("key", &[9; 16]);
    check_refused(&folder, 7, &CLOSING_DIFFERS);
}

#[test]
fn every_cut_is_12_also_for_list_and_explain() {
    for worked in EDITIONS {
        let folder = Folder::of(&worked);
        for length in 0..worked.file.len() {
            folder.put("7.burst", &worked.file[..length]);
            check_front_broken(&folder);
        }
        check_refused(&folder, 12, &[]);
    }
}

#[test]
fn another_edition_number_is_12_also_for_list_and_explain() {
    for worked in EDITIONS {
        let folder = Folder::of(&worked);
        for edition in (0..=255).filter(|number| *number != worked.edition as u8) {
            folder.put("7.burst", &worked.with(0, edition));
            check_front_broken(&folder);
        }
    }
}

/// Every command refuses `7.burst` with 12.
fn check_front_broken(folder: &Folder) {
    let parts = ["a front rule is broken: 7.burst", "burst explain"];
    let run = folder.say("list 7.burst").refused(12, &parts);
    assert_eq!(run.out, "front 12\n");
    folder.say("explain 7.burst").refused(12, &parts[..1]);
    folder.say("check --key key 7.burst").refused(12, &parts);
    folder
        .say("fetch --key key --all all 7.burst")
        .refused(12, &parts);
}

#[test]
fn a_file_longer_than_the_largest_burst_is_12() {
    let folder = Folder::new();
    let mut file = EDITION_2.file.to_vec();
    file.resize(63_000_000, 0);
    folder.put("7.burst", &file);
    check_refused(&folder, 12, &[]);
    let run = folder.say("explain 7.burst").refused(12, &[]);
    assert!(run.out.contains("more than 62917272"), "{}", run.out);
}

#[test]
fn a_place_not_below_kept_is_13() {
    let folder = Folder::new();
    // 65,536, 2^32 and 2^64 would be place 0 if they were cut to 16, 32 or 64
    // bits.
    for place in [
        "1",
        "60",
        "65535",
        "65536",
        "65537",
        "4294967296",
        "4294967297",
        "18446744073709551615",
        "18446744073709551616",
        "18446744073709551617",
    ] {
        let line = format!("fetch --key key --place {place} --out picture 7.burst");
        let about = format!("there is no such place: {place}, in a burst with 1 kept");
        folder
            .say(&line)
            .refused(13, &[&about, "from 0", "not shot numbers"]);
        folder.check_nothing_new();
    }
}

#[test]
fn the_key_comes_before_the_front_and_the_front_before_tags() {
    let folder = Folder::new();
    folder.put("7.burst", &EDITION_2.file[..110]);
    folder.put("key", &[9; 16]);
    check_refused(&folder, 12, &[]);
    folder.put("key", &[9; 15]);
    check_refused(&folder, 1, &[]);
}
