//! Files that the proved recorder of edition 1 wrote, before edition 2 took its
//! place (stored/README.md): they are read and listed as they were then, and
//! refused with a byte changed.

use std::collections::BTreeSet;
use std::fs;
use std::path::Path;

use burst_calls::lent::check_same;
use burst_calls::list::ROOM;
use burst_calls::listing::check_rooms;
use burst_calls::page::worked_file;
use burst_calls::reading::{
    check_check, check_gives_back, check_reference_gives_back, check_refused, CHECK_INFO,
};
use reference::burst::lister::list;
use reference::burst::plain::run;
use reference::burst::{Call, PlainBurst, EDITION_1};
use reference::page::run_of;

const FOLDER: &str = concat!(env!("CARGO_MANIFEST_DIR"), "/stored");
const CONTENTS: &str = include_str!("../stored/contents.txt");

/// A file and its listing as they are stored, and the burst that was recorded.
struct Stored {
    name: &'static str,
    file: Vec<u8>,
    text: String,
    burst: PlainBurst,
}

/// The calls of a line: a keep, a drop, or so many drops.
fn calls_of(line: &str) -> Vec<Call> {
    let Some((call, rest)) = line.split_once(", ") else {
        assert_eq!(line, "drop");
        return vec![Call::Drop];
    };
    if let Some(stamp) = call.strip_prefix("keep ") {
        let (stamp, picture) = (run_of(stamp), run_of(rest));
        return vec![Call::Keep { stamp, picture }];
    }
    assert_eq!(call, "drop");
    let times = rest.strip_suffix(" times").unwrap();
    vec![Call::Drop; times.parse().unwrap()]
}

/// One part of the table, with what is stored under its name.
fn stored(part: &'static str) -> Stored {
    let mut lines = part.lines();
    let name = lines.next().unwrap();
    let mut after = |word| lines.next().unwrap().strip_prefix(word).unwrap();
    let begin = Call::Begin {
        key: run_of(after("key ")),
        burst_number: after("burst ").parse().unwrap(),
        camera: 0,
        site_mark: run_of(after("site mark ")),
    };
    let shots: Vec<Call> = lines.flat_map(calls_of).collect();
    let calls = [vec![begin], shots, vec![Call::Close]].concat();
    let outcome = run(EDITION_1, &calls, ROOM);
    assert!(outcome.answers.iter().all(|answer| answer.number == 0));
    let path = |ending| Path::new(FOLDER).join(format!("{name}.{ending}"));
    Stored {
        name,
        file: fs::read(path("burst")).unwrap(),
        text: fs::read_to_string(path("txt")).unwrap(),
        burst: outcome.burst,
    }
}

fn all() -> Vec<Stored> {
    CONTENTS.split("\n\n").map(stored).collect()
}

#[test]
fn table_names_what_is_stored() {
    let mut expected = BTreeSet::from(["README.md", "contents.txt"].map(String::from));
    for stored in all() {
        expected.extend(["burst", "txt"].map(|ending| format!("{}.{ending}", stored.name)));
    }
    assert_eq!(expected.len(), 2 + 2 * 13);
    let entries = fs::read_dir(FOLDER).unwrap();
    let found = entries.map(|entry| entry.unwrap().file_name().into_string().unwrap());
    assert_eq!(found.collect::<BTreeSet<_>>(), expected);
}

/// Every picture with its stamp and shot number, the gaps, the counts, burst
/// number and site mark, and camera number 0.
#[test]
fn given_back() {
    for stored in all() {
        let (burst, file) = (&stored.burst, &stored.file);
        let what = || stored.name.into();
        let mut info = [9; CHECK_INFO];
        assert_eq!(burst_calls::check(&burst.key, file, &mut info), (0, 0));
        assert_eq!(info[30..], [0; 4], "{}", what());
        check_gives_back(burst, file, &what);
        check_reference_gives_back(burst, file, &what);
    }
}

#[test]
fn listed() {
    for stored in all() {
        assert_eq!(list(&stored.file), stored.text, "{}", stored.name);
        check_rooms(&stored.file, &stored.text, &|| stored.name.into());
    }
}

#[test]
fn files_of_plain_bursts() {
    for stored in all() {
        check_same(&stored.file, &stored.burst.file(), &|| stored.name.into());
    }
}

#[test]
fn first_is_the_worked_file() {
    let all = all();
    assert_eq!(all[0].name, "first");
    assert_eq!(all[0].file, worked_file());
}

/// One bit of every byte, for check; for all three calls, of some.
#[test]
fn every_byte_changed() {
    for stored in all() {
        let mut changed = stored.file.clone();
        for at in 0..changed.len() {
            changed[at] ^= 1 << (at % 8);
            let what = || format!("{}, byte {at}", stored.name);
            let (number, _) = check_check(&stored.burst.key, &changed, CHECK_INFO, &what);
            assert!([7, 12].contains(&number), "{number}, {}", what());
            if at % 16 == 0 {
                check_refused(&stored.burst.key, &changed, &what);
            }
            changed[at] = stored.file[at];
        }
    }
}
