//! The proved recorder writes the worked files of docs/FORMAT.md that are of
//! edition 2, from the page's lists of calls. The proved reader reads all of
//! them and refuses damaged copies and fronts without seals as the page says,
//! the proved lister prints the page's texts, and the page's plans have the
//! sizes that it says.

use burst_calls::lent::Lent;
use burst_calls::listing::{check_rooms, check_text, LIST_BYTES};
use burst_calls::reading::{
    check_check, check_fetch, check_record, check_refused, CHECK_INFO, FETCH_INFO,
};
use burst_calls::recording::Recording;
use burst_calls::script::script_of;
use burst_calls::sizing::check_answer;
use burst_calls::{check, fetch, list_front, record, replay};
use reference::burst::Call;
use reference::page::{self, counting, damaged_copies, Recorded, WORKED};

fn key() -> Vec<u8> {
    counting(0x00, 16)
}

#[test]
fn recorded() {
    let mut script = vec![0, 2, 16, 3, 0, 0, 0];
    script.extend(counting(0x20, 16));
    script.extend(b"fox");
    script.extend([0, 1]);
    let (mut buffer, mut answers) = (vec![0xA5; 119], vec![0; 40]);
    let (key, site_mark) = (key(), counting(0x10, 16));
    let given = replay(
        &key,
        7,
        1000,
        &site_mark,
        &script,
        &mut buffer,
        &mut answers,
    );
    assert_eq!(given, (5, 1));
    assert_eq!(buffer, WORKED[1].file());
}

/// The list has the page's answers. Gives the buffer.
fn check_recorded(recorded: &Recorded, what: &str) -> Vec<u8> {
    let (first, calls) = recorded.calls.split_first().unwrap();
    let Call::Begin {
        key,
        burst_number,
        camera,
        site_mark,
    } = first
    else {
        panic!("no begin, {what}");
    };
    let recording = Recording {
        key: key.clone(),
        burst_number: *burst_number,
        camera: *camera,
        site_mark: site_mark.clone(),
        script: script_of(calls),
        buffer: vec![0xA5; recorded.buffer_len],
        answers: vec![0xA5; 8 * recorded.calls.len()],
    };
    let performed = recording.check(&|| what.into());
    assert!(performed.whole, "{what}");
    assert_eq!(performed.answers, recorded.answers, "{what}");
    performed.buffer
}

/// The buffers are exactly as long as the files.
#[test]
fn recorded_lists() {
    for (recorded, name) in [
        (page::second_list(), "second file"),
        (page::third_list(), "third file"),
    ] {
        let buffer = check_recorded(&recorded, name);
        assert_eq!(buffer, page::bytes(name), "{name}");
    }
}

#[test]
fn begun() {
    for recorded in page::begins() {
        check_recorded(&recorded, "begin");
    }
}

/// Number, file length and calls of the permutation of the table of plans.
#[test]
fn plans() {
    for plan in page::plans() {
        check_answer(&plan.lengths, plan.size, &|| format!("plan, {}", plan.what));
    }
}

/// Stamp, shot number, length and picture, and the sealed part, at each place
/// of the second file.
#[test]
fn kept_pictures() {
    let file = page::bytes("second file");
    for kept in page::kept_pictures() {
        let (mut out, mut info) = (Lent::of(200), [0; 22]);
        let given = fetch(&key(), &file, kept.place, out.slice(), &mut info);
        assert_eq!(given, (0, 0), "{kept:?}");
        out.check_written(&kept.picture, &|| format!("{kept:?}"));
        assert_eq!(info[..2], kept.shot.to_le_bytes());
        assert_eq!(info[2..6], (kept.picture.len() as u32).to_le_bytes());
        assert_eq!(info[6..], kept.stamp);
        assert_eq!(record(&key(), &file, kept.place), kept.record, "{kept:?}");
    }
}

/// Numbers and marks of the table of calls.
#[test]
fn readings() {
    for reading in page::readings() {
        let (key, file, place) = (&reading.key[..], &reading.file[..], reading.place);
        let what = || format!("{reading:?}");
        let checked = check_check(key, file, CHECK_INFO, &what);
        let fetched = check_fetch(key, file, place, (reading.room, FETCH_INFO), &what);
        let recorded = check_record(key, file, place, &what);
        let given = [checked, fetched, recorded];
        assert_eq!(given, [reading.check, reading.fetch, reading.record]);
    }
}

/// Numbers and last lines of the table of fronts.
#[test]
fn fronts() {
    for row in page::fronts() {
        let refused = check_refused(&key(), &row.file, &|| row.what.clone());
        assert_eq!(refused, (row.number, 0), "{}", row.what);
        let mut text = [0; LIST_BYTES];
        let (number, length) = list_front(&row.file, &mut text);
        let lines = std::str::from_utf8(&text[..length as usize]).unwrap();
        let last = lines.lines().last();
        assert_eq!((number, last), (0, Some(&row.line[..])), "{}", row.what);
    }
}

/// Burst number, site mark, counts and camera number; stamp, shot number and
/// length; the sealed part. Later bytes of the output stay.
#[test]
fn read() {
    for worked in WORKED {
        let file = worked.file();
        let mut info = [0; 34];
        assert_eq!(check(&key(), &file, &mut info), (0, 0));
        assert_eq!(info[..8], 7u64.to_le_bytes());
        assert_eq!(info[8..24], counting(0x10, 16));
        assert_eq!(info[24..30], [3, 0, 1, 0, 2, 0]);
        assert_eq!(info[30..], worked.camera.to_le_bytes());
        for room in [3, 4, 1_000] {
            let (mut out, mut info) = (Lent::of(room), [0; 22]);
            let given = fetch(&key(), &file, 0, out.slice(), &mut info);
            assert_eq!(given, (0, 0));
            out.check_written(b"fox", &|| "out".into());
            assert_eq!(info[..6], [2, 0, 3, 0, 0, 0]);
            assert_eq!(info[6..], counting(0x20, 16));
        }
        for (place, part) in worked.records().into_iter().enumerate() {
            assert_eq!(record(&key(), &file, place), part);
        }
    }
}

/// 5 and 13 have mark 0, and the output stays.
#[test]
fn refused() {
    for worked in WORKED {
        let file = worked.file();
        for (place, room, number) in [(0, 2, 5), (0, 0, 5), (1, 3, 13), (1, 2, 13)] {
            let (mut out, mut info) = (Lent::of(room), Lent::of(22));
            let given = fetch(&key(), &file, place, out.slice(), info.slice());
            assert_eq!(given, (number, 0), "place {place}, room {room}");
            out.check_untouched(&|| "out".into());
            info.check_untouched(&|| "info".into());
        }
    }
}

/// Check, fetch and record refuse each copy with the page's number and mark,
/// and write nothing; the listing begins with the page's line.
#[test]
fn damaged() {
    for copy in damaged_copies() {
        let (file, what) = (copy.file(), || format!("{copy:?}"));
        let refused = check_refused(&key(), &file, &what);
        assert_eq!(refused, (copy.number, copy.mark), "{copy:?}");
        let mut text = [0; LIST_BYTES];
        let (number, length) = list_front(&file, &mut text);
        let lines = std::str::from_utf8(&text[..length as usize]).unwrap();
        let first = lines.lines().next();
        assert_eq!((number, first), (0, Some(&copy.line[..])), "{copy:?}");
    }
    for right in WORKED.map(|worked| worked.file()) {
        let longer = [&right[..], &[0]].concat();
        for file in [&right[..right.len() - 1], &longer] {
            let given = check_refused(&key(), file, &|| "beside the table".into());
            assert_eq!(given, (12, 0));
        }
    }
}

#[test]
fn listed() {
    let what = || "a text of the page".into();
    for worked in WORKED {
        check_rooms(&worked.file(), &worked.listing(), &what);
        let mut long = worked.file();
        long.resize(65_536, 0);
        check_rooms(&long, &page::text("broken"), &what);
        long.push(0);
        check_text(&long, LIST_BYTES, &page::text("too long"), &what);
    }
    for name in ["second", "third"] {
        let file = page::bytes(&format!("{name} file"));
        let text = page::text(&format!("{name} listing"));
        check_rooms(&file, &text, &what);
    }
    check_rooms(&[], &page::text("broken"), &what);
}
