//! What each stored input is, and what the lister prints for it. Seals are
//! worked out from the front as it is; the two long files have zeros there.

use std::path::PathBuf;

use burst_calls::draft::{base, changed, draft, Draft};
use burst_calls::list::file_of;
use burst_calls::listing::{BROKEN, TOO_LONG};
use reference::burst::{Edition, EDITIONS, EDITION_1};
use reference::page::WORKED;

/// NAME.burst and NAME.txt, in the folder of their edition.
pub struct Stored {
    pub edition: Edition,
    pub name: &'static str,
    pub file: Vec<u8>,
    pub text: String,
}

impl Stored {
    pub fn what(&self) -> String {
        format!("{}, edition {}", self.name, self.edition.number)
    }
}

/// The folder of an edition.
pub fn folder(edition: Edition) -> PathBuf {
    let folder = concat!(env!("CARGO_MANIFEST_DIR"), "/stored/edition_");
    PathBuf::from(format!("{folder}{}", edition.number))
}

/// All of them.
pub fn all() -> Vec<Stored> {
    EDITIONS.into_iter().flat_map(of_edition).collect()
}

/// Name, input and output.
type Named = (&'static str, Vec<u8>, String);

fn of_edition(edition: Edition) -> Vec<Stored> {
    let broken = [
        header_rules(edition),
        camera_rules(edition),
        index_rules(edition),
        ends(edition),
        wraps(edition),
    ];
    let broken = broken.concat().into_iter();
    let broken = broken.map(|(name, file)| (name, file, BROKEN.into()));
    let listed = right(edition).into_iter().chain(long(edition));
    let stored = |(name, file, text)| Stored {
        edition,
        name,
        file,
        text,
    };
    listed.chain(broken).map(stored).collect()
}

/// Files that obey every rule.
pub fn right(edition: Edition) -> Vec<Named> {
    let sixty: Vec<usize> = (1..=60).collect();
    let worked = WORKED.into_iter().find(|worked| worked.edition == edition);
    let start = edition.header_bytes;
    let second = start + 33;
    vec![
        (
            "example",
            worked.unwrap().file(),
            format!("burst 7\ntaken 3 kept 1 dropped 2\nshot 2 at {start} length 3\n"),
        ),
        (
            "empty",
            file_of(edition, 0, &[]),
            "burst 0\ntaken 0 kept 0 dropped 0\n".into(),
        ),
        (
            "all_dropped",
            file_of(edition, u64::MAX, &[0; 60]),
            "burst 18446744073709551615\ntaken 60 kept 0 dropped 60\n".into(),
        ),
        (
            "last_dropped",
            file_of(edition, 12, &[1, 128, 0]),
            format!(
                "burst 12\ntaken 3 kept 2 dropped 1\n\
                 shot 1 at {start} length 1\nshot 2 at {second} length 128\n"
            ),
        ),
        (
            "sixty_shots",
            file_of(edition, 60, &sixty),
            sixty_lines(start),
        ),
    ]
}

/// Shot n of n bytes, for 1 to 60.
fn sixty_lines(start: usize) -> String {
    let mut text = String::from("burst 60\ntaken 60 kept 60 dropped 0\n");
    let mut offset = start;
    for shot in 1..=60 {
        text += &format!("shot {shot} at {offset} length {shot}\n");
        offset += shot + 32;
    }
    text
}

/// Pictures with lengths of 1 to 5 digits, the last as long as given.
fn digits(edition: Edition, last: u32) -> Vec<u8> {
    let lengths = [1, 9, 10, 99, 100, 999, 1_000, 9_999, 10_000, last];
    let kept: Vec<(u16, u32)> = (1..).zip(lengths).collect();
    draft(edition, 10, &kept).unsealed()
}

/// The longest file that is listed. One byte more in its last picture, and the
/// front is right still.
fn long(edition: Edition) -> Vec<Named> {
    let (last, text) = match edition {
        EDITION_1 => (
            42_815,
            "burst 81985529216486895\ntaken 10 kept 10 dropped 0\n\
             shot 1 at 32 length 1\n\
             shot 2 at 65 length 9\n\
             shot 3 at 106 length 10\n\
             shot 4 at 148 length 99\n\
             shot 5 at 279 length 100\n\
             shot 6 at 411 length 999\n\
             shot 7 at 1442 length 1000\n\
             shot 8 at 2474 length 9999\n\
             shot 9 at 12505 length 10000\n\
             shot 10 at 22537 length 42815\n",
        ),
        _ => (
            42_807,
            "burst 81985529216486895\ntaken 10 kept 10 dropped 0\n\
             shot 1 at 40 length 1\n\
             shot 2 at 73 length 9\n\
             shot 3 at 114 length 10\n\
             shot 4 at 156 length 99\n\
             shot 5 at 287 length 100\n\
             shot 6 at 419 length 999\n\
             shot 7 at 1450 length 1000\n\
             shot 8 at 2482 length 9999\n\
             shot 9 at 12513 length 10000\n\
             shot 10 at 22545 length 42807\n",
        ),
    };
    let longer = digits(edition, last + 1);
    vec![
        ("exactly_65536", digits(edition, last), text.into()),
        ("one_byte_too_long", longer, TOO_LONG.into()),
    ]
}

/// Name and input, whose front breaks a rule.
type Broken = (&'static str, Vec<u8>);

/// The base, shots 1 and 3 kept of 3 taken, with a change.
fn edit(edition: Edition, name: &'static str, change: impl Fn(&mut Draft)) -> Broken {
    (name, changed(edition, change).file())
}

/// The base, which says that it is of another edition.
fn called(edition: Edition, name: &'static str, number: u16) -> Broken {
    edit(edition, name, |draft| draft.header.edition.number = number)
}

/// Rules of the header's first fields.
fn header_rules(edition: Edition) -> Vec<Broken> {
    // Such a file cannot keep the other rules; its total is right.
    let mut too_short = draft(edition, 0, &[]).file();
    too_short.pop();
    too_short[28] -= 1;
    let (right, start) = (edition.number, edition.header_bytes as u32);
    let offset = |name, offset| edit(edition, name, |draft| draft.header.picture_offset = offset);
    let taken_61 = draft(edition, 61, &[(1, 5), (3, 7)]).file();
    vec![
        ("too_short", too_short),
        called(edition, "edition", 3 - right),
        called(edition, "edition_0", 0),
        called(edition, "edition_3", 3),
        called(edition, "edition_high_byte", right + 256),
        called(edition, "edition_swapped", right << 8),
        called(edition, "edition_65535", 65_535),
        offset("picture_offset", start + 1),
        offset("picture_offset_of_the_other", 72 - start),
        ("taken_61", taken_61),
        edit(edition, "counts", |draft| draft.header.dropped = 2),
    ]
}

/// Rules of camera number and zeros, which edition 2 alone has.
fn camera_rules(edition: Edition) -> Vec<Broken> {
    if !edition.has_camera {
        return Vec::new();
    }
    let zeros = |name, byte: u32| edit(edition, name, |draft| draft.header.zeros = 1 << (8 * byte));
    vec![
        edit(edition, "camera_0", |draft| draft.header.camera = 0),
        zeros("header_zeros_36", 0),
        zeros("header_zeros_37", 1),
        zeros("header_zeros_38", 2),
        zeros("header_zeros_39", 3),
    ]
}

/// Rules of the index.
fn index_rules(edition: Edition) -> Vec<Broken> {
    let kept = |name, kept: [(u16, u32); 2]| (name, draft(edition, 3, &kept).file());
    let edit = |name, change: fn(&mut Draft)| edit(edition, name, change);
    vec![
        kept("shot_not_rising", [(2, 5), (2, 7)]),
        kept("shot_zero", [(0, 5), (3, 7)]),
        kept("shot_above_taken", [(1, 5), (4, 7)]),
        edit("zeros", |draft| draft.entries[1].zero = 0x0100),
        kept("length_zero", [(1, 0), (3, 7)]),
        // A file that is listed cannot be so long: the record ends past it too.
        edit("length_above_max", |draft| {
            draft.entries[1].length = 1_048_577;
        }),
        edit("records_apart", |draft| {
            draft.entries[1].offset += 1;
            draft.lay_out_index(draft.header.index_offset + 1);
        }),
        edit("records_not_from_the_header", |draft| {
            draft.lay_out(draft.header.picture_offset + 1);
        }),
        edit("records_end", |draft| {
            draft.lay_out_index(draft.header.index_offset + 1);
        }),
    ]
}

/// Rules of closing offset, total and the file's length.
fn ends(edition: Edition) -> Vec<Broken> {
    let longer = [base(edition).file(), vec![0]].concat();
    let mut shorter = base(edition).file();
    shorter.pop();
    vec![
        edit(edition, "closing_offset", |draft| {
            draft.lay_out_closing(draft.header.closing_offset + 1);
        }),
        edit(edition, "total", |draft| {
            draft.header.total += 1;
            draft.length += 1;
        }),
        ("file_longer", longer),
        ("file_shorter", shorter),
    ]
}

/// Sums that are right in 16 or in 32 bits only.
fn wraps(edition: Edition) -> Vec<Broken> {
    let edit = |name, change: fn(&mut Draft)| edit(edition, name, change);
    vec![
        // Kept 1 + dropped 65,535 = taken 0.
        ("counts_wrap_16", draft(edition, 0, &[(1, 5)]).file()),
        edit("offsets_wrap_16", |draft| {
            draft.header.index_offset += 65_536;
            draft.header.closing_offset += 65_536;
            draft.header.total += 65_536;
        }),
        edit("record_wrap_16", |draft| draft.entries[1].offset += 65_536),
        edit("length_wrap_16", |draft| draft.entries[1].length += 65_536),
        // Record offset + length + 32 = index offset, 31 bytes on.
        edit("record_wrap_32", |draft| {
            draft.lay_out_index(draft.entries[1].offset + 31);
            draft.records[1].1 = 0;
            draft.entries[1].length = 1u32.wrapping_neg();
        }),
        ("index_wrap_32", index_wrap_32(edition).file()),
        ("closing_wrap_32", closing_wrap_32(edition).file()),
    ]
}

/// Index offset + 12 kept = closing offset, where the header ends.
fn index_wrap_32(edition: Edition) -> Draft {
    let kept = edition.header_bytes as u16 / 12 + 1;
    let mut draft = draft(edition, kept, &[]);
    (draft.header.kept, draft.header.dropped) = (kept, 0);
    let index_bytes = 12 * u32::from(kept);
    draft.header.index_offset = draft.header.closing_offset.wrapping_sub(index_bytes);
    draft
}

/// Closing offset + 32 = total 0.
fn closing_wrap_32(edition: Edition) -> Draft {
    let mut draft = draft(edition, 0, &[]);
    draft.header.index_offset = 32u32.wrapping_neg();
    draft.header.closing_offset = 32u32.wrapping_neg();
    draft.header.total = 0;
    draft
}
