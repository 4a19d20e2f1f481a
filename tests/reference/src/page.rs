//! What stands on docs/FORMAT.md to be held true: its fenced blocks, each with
//! a kind and a name, tables, each under a heading of its own, and bytes within
//! its text. So it is with the table of docs/CARDS.md.

use std::fmt::Debug;
use std::ops::Range;

use crate::burst::layout::{nonce, ENTRY_BYTES};
use crate::burst::reader::RecordPart;
use crate::burst::{Answer, Call, CardLine, Edition, Entry, Header, Size, EDITION_1, EDITION_2};

const PAGE: &str = include_str!("../../../docs/FORMAT.md");

const CARDS: &str = include_str!("../../../docs/CARDS.md");

/// Kind, name and text of every fenced block.
fn blocks() -> Vec<(&'static str, &'static str, &'static str)> {
    let fenced = PAGE.split("\n```").skip(1).step_by(2);
    let parts = |block: &'static str| {
        let (head, text) = block.split_once('\n').expect("a line and a text");
        let (kind, name) = head.split_once(' ').expect("a kind and a name");
        (kind, name, text)
    };
    fenced.map(parts).collect()
}

/// The names of every block, each behind its kind.
pub fn names() -> Vec<String> {
    let name = |(kind, name, _): &(&str, &str, _)| format!("{kind} {name}");
    blocks().iter().map(name).collect()
}

fn block(kind: &str, name: &str) -> &'static str {
    let mut blocks = blocks().into_iter();
    let found = blocks.find(|(its_kind, its_name, _)| (*its_kind, *its_name) == (kind, name));
    found.unwrap_or_else(|| panic!("no block {kind} {name}")).2
}

/// What stands between spaces in a block; what follows a semicolon is a
/// comment.
fn items(kind: &str, name: &str) -> impl Iterator<Item = &'static str> {
    let lines = block(kind, name).lines();
    lines.flat_map(|line| line.split(';').next().unwrap().split_whitespace())
}

/// The bytes of a block.
pub fn bytes(name: &str) -> Vec<u8> {
    let byte = |digits| u8::from_str_radix(digits, 16).unwrap();
    items("hex", name).map(byte).collect()
}

/// The 64-bit words of a block.
pub fn words(name: &str) -> Vec<u64> {
    let word = |digits: &str| {
        assert_eq!(digits.len(), 16, "{digits}");
        u64::from_str_radix(digits, 16).unwrap()
    };
    items("words", name).map(word).collect()
}

/// The decimal numbers of a block.
pub fn numbers(name: &str) -> Vec<u32> {
    let number = |digits: &str| digits.parse().unwrap();
    items("numbers", name).map(number).collect()
}

/// The text of a block, with the newline of its last line.
pub fn text(name: &str) -> String {
    format!("{}\n", block("text", name))
}

/// Bytes, each one more than the one before.
pub fn counting(from: u8, length: usize) -> Vec<u8> {
    (0..length).map(|i| from.wrapping_add(i as u8)).collect()
}

/// What the page says of the first worked file in one edition.
#[derive(Clone, Copy, Debug, PartialEq, Eq)]
pub struct Worked {
    pub edition: Edition,
    /// What check answers.
    pub camera: u32,
    /// Where record, index and closing seal begin, and the total length.
    pub offsets: [usize; 4],
}

pub const WORKED: [Worked; 2] = [
    Worked {
        edition: EDITION_1,
        camera: 0,
        offsets: [32, 67, 79, 111],
    },
    Worked {
        edition: EDITION_2,
        camera: 1000,
        offsets: [40, 75, 87, 119],
    },
];

/// A sealed part of a file, and what is sealed there.
#[derive(Clone, Debug, PartialEq, Eq)]
pub struct Part {
    pub nonce: [u8; 16],
    pub ad: Vec<u8>,
    pub secret: Vec<u8>,
    pub message: Vec<u8>,
    pub sealed: Vec<u8>,
}

impl Worked {
    pub fn file(&self) -> Vec<u8> {
        bytes(&format!("file in edition {}", self.edition.number))
    }

    pub fn listing(&self) -> String {
        text(&format!("listing in edition {}", self.edition.number))
    }

    pub fn total(&self) -> usize {
        self.offsets[3]
    }

    /// The list of calls that makes it.
    pub fn calls(&self) -> Vec<Call> {
        let keep = Call::Keep {
            stamp: counting(0x20, 16),
            picture: b"fox".to_vec(),
        };
        let begin = begin("00 .. 0F", 7, self.camera, "10 .. 1F");
        vec![begin, Call::Drop, keep, Call::Drop, Call::Close]
    }

    /// What record answers at places 0 and 1.
    pub fn records(&self) -> [RecordPart; 2] {
        [record_part(0, self.offsets[0], 35), record_part(13, 0, 0)]
    }

    /// The record and the closing seal.
    pub fn parts(&self) -> [Part; 2] {
        let file = self.file();
        let [record, index, closing, total] = self.offsets;
        let part = |shot, ad, secret, message: &[u8], sealed: Range<usize>| Part {
            nonce: nonce(7, shot, self.camera),
            ad,
            secret: counting(secret, 16),
            message: message.to_vec(),
            sealed: file[sealed].to_vec(),
        };
        let entry = &file[index..closing];
        let header_and_index = [&file[..record], entry].concat();
        [
            part(2, entry.to_vec(), 0x20, b"fox", record..index),
            part(0, header_and_index, 0x10, &[], closing..total),
        ]
    }
}

fn record_part(number: u32, offset: usize, length: usize) -> RecordPart {
    RecordPart {
        number,
        mark: 0,
        offset,
        length,
    }
}

/// The text under a heading of a page, down to the next one.
fn under(page: &'static str, heading: &str) -> &'static str {
    let found = page.split_once(&format!("\n### {heading}\n"));
    let text = found.unwrap_or_else(|| panic!("no heading {heading}")).1;
    text.split("\n#").next().unwrap()
}

/// The headings among the examples of a page that have a table under them.
fn tables_of(page: &'static str) -> Vec<&'static str> {
    let (_, examples) = page.split_once("\n## Examples\n").unwrap();
    let headings = examples
        .lines()
        .filter_map(|line| line.strip_prefix("### "));
    headings
        .filter(|heading| under(page, heading).contains("\n|"))
        .collect()
}

pub fn tables() -> Vec<&'static str> {
    tables_of(PAGE)
}

/// The rows of the table under a heading of a page, cell by cell.
fn rows_of<const N: usize>(page: &'static str, heading: &str) -> Vec<[&'static str; N]> {
    let lines = under(page, heading).lines();
    let table = lines.filter(|line| line.starts_with('|')).skip(2);
    let cells = |line: &'static str| {
        let inner = line
            .strip_prefix('|')
            .and_then(|line| line.strip_suffix('|'));
        let cells: Vec<&str> = inner.unwrap().split('|').map(str::trim).collect();
        let count = cells.len();
        let cells = cells.try_into();
        cells.unwrap_or_else(|_| panic!("{count} columns: {line}"))
    };
    table.map(cells).collect()
}

fn rows<const N: usize>(heading: &str) -> Vec<[&'static str; N]> {
    rows_of(PAGE, heading)
}

fn decimal<T: std::str::FromStr>(cell: &str) -> T {
    let number = cell.parse();
    number.unwrap_or_else(|_| panic!("not a number in range: {cell}"))
}

fn byte(cell: &str) -> u8 {
    assert_eq!(cell.len(), 2, "{cell}");
    u8::from_str_radix(cell, 16).unwrap()
}

/// The bytes of a cell: none, a run `30 .. 3F`, or one by one.
pub fn run_of(cell: &str) -> Vec<u8> {
    match cell.split_once(" .. ") {
        Some((first, last)) => (byte(first)..=byte(last)).collect(),
        None if cell == "none" => vec![],
        None => cell.split(' ').map(byte).collect(),
    }
}

/// A row of the tables of header and index entry. Its name ends where a remark
/// on it begins.
#[derive(Clone, Debug, PartialEq, Eq)]
pub struct Field {
    pub offset: usize,
    pub length: usize,
    pub name: &'static str,
    /// Edition 1 has no such field.
    pub is_of_edition_2: bool,
}

/// The fields of `Header` or `Index entry`.
pub fn fields(heading: &str) -> Vec<Field> {
    let field = |[offset, length, field]: [&'static str; 3]| Field {
        offset: decimal(offset),
        length: decimal(length),
        name: field.split([',', ':', ';']).next().unwrap(),
        is_of_edition_2: field.ends_with("; in edition 2 only"),
    };
    rows(heading).into_iter().map(field).collect()
}

/// The rows of the table of the editions: what differs, then for each edition
/// how, without commas.
pub fn editions() -> Vec<(&'static str, [String; 2])> {
    let row = |[what, first, second]: [&'static str; 3]| {
        (what, [first, second].map(|cell| cell.replace(',', "")))
    };
    let rows = rows("Where the editions differ");
    rows.into_iter().map(row).collect()
}

/// Bytes of a file, and the number there; sealed bytes are none.
#[derive(Clone, Debug, PartialEq, Eq)]
pub struct Stretch {
    pub bytes: Range<usize>,
    pub number: Option<u64>,
}

/// Where the two first files differ: what it is, and where it stands in each of
/// them that has it.
pub fn differences() -> Vec<(&'static str, [Option<Stretch>; 2])> {
    let stretch = |(bytes, number): (&str, &str)| {
        let Some((first, last)) = bytes.split_once(" to ") else {
            assert_eq!((bytes, number), ("none", "none"));
            return None;
        };
        Some(Stretch {
            bytes: decimal(first)..decimal::<usize>(last) + 1,
            number: (number != "sealed").then(|| decimal(number)),
        })
    };
    let row = |[what, at_1, number_1, at_2, number_2]: [&'static str; 5]| {
        (what, [(at_1, number_1), (at_2, number_2)].map(stretch))
    };
    let rows = rows("Where the two files differ");
    rows.into_iter().map(row).collect()
}

/// A row of the table of damaged copies: the bytes that are changed, check's
/// number and mark, and the first line of the listing.
#[derive(Clone, Debug, PartialEq, Eq)]
pub struct Damaged {
    pub worked: Worked,
    pub at: usize,
    pub from: Vec<u8>,
    pub to: Vec<u8>,
    pub number: u32,
    pub mark: u32,
    pub line: String,
}

impl Damaged {
    /// The worked file with those bytes changed.
    pub fn file(&self) -> Vec<u8> {
        let mut file = self.worked.file();
        let changed = &mut file[self.at..][..self.from.len()];
        assert_eq!(changed, self.from, "{self:?}");
        changed.copy_from_slice(&self.to);
        file
    }
}

pub fn damaged_copies() -> Vec<Damaged> {
    let copy = |[edition, at, from, to, number, mark, _, line]: [&str; 8]| Damaged {
        worked: WORKED[decimal::<usize>(edition) - 1],
        at: decimal(at),
        from: run_of(from),
        to: run_of(to),
        number: decimal(number),
        mark: decimal(mark),
        line: line.trim_matches('`').into(),
    };
    let rows = rows("Damaged copies of them");
    rows.into_iter().map(copy).collect()
}

/// A kept picture of the second file: what fetch and record answer at its
/// place.
#[derive(Clone, Debug, PartialEq, Eq)]
pub struct Kept {
    pub place: usize,
    pub shot: u16,
    pub stamp: Vec<u8>,
    pub picture: Vec<u8>,
    pub record: RecordPart,
}

pub fn kept_pictures() -> Vec<Kept> {
    let kept = |[place, shot, stamp, picture, offset, length]: [&str; 6]| Kept {
        place: decimal(place),
        shot: decimal(shot),
        stamp: run_of(stamp),
        picture: run_of(picture),
        record: record_part(0, decimal(offset), decimal(length)),
    };
    rows("The second file").into_iter().map(kept).collect()
}

/// A row of the table of calls on the second file: key, file, place and length
/// of the output, and number and mark of check, fetch and record.
#[derive(Clone, Debug, PartialEq, Eq)]
pub struct Reading {
    pub key: Vec<u8>,
    pub file: Vec<u8>,
    pub place: usize,
    pub room: usize,
    pub check: (u32, u32),
    pub fetch: (u32, u32),
    pub record: (u32, u32),
}

/// A number, and under 7 a mark.
fn number_and_mark(cell: &str) -> (u32, u32) {
    let marked = cell.split_once(", ");
    assert_eq!(marked.is_some(), cell.starts_with('7'), "{cell}");
    let (number, mark) = marked.unwrap_or((cell, "0"));
    (decimal(number), decimal(mark))
}

/// The second file with the lowest bit of some bytes changed.
fn second_changed(at: &str) -> Vec<u8> {
    let mut file = bytes("second file");
    for at in at.split(", ").filter(|at| *at != "none") {
        file[decimal::<usize>(at)] ^= 1;
    }
    file
}

pub fn readings() -> Vec<Reading> {
    let reading = |[key, at, place, room, check, fetch, record, _]: [&str; 8]| Reading {
        key: (0..decimal(key)).collect(),
        file: second_changed(at),
        place: decimal(place),
        room: decimal(room),
        check: number_and_mark(check),
        fetch: number_and_mark(fetch),
        record: number_and_mark(record),
    };
    rows("Calls on it").into_iter().map(reading).collect()
}

/// A list of calls with their answers, and the buffer's length.
#[derive(Clone, Debug, PartialEq, Eq)]
pub struct Recorded {
    pub calls: Vec<Call>,
    pub answers: Vec<Answer>,
    pub buffer_len: usize,
}

/// The list under a heading, which begins with this begin.
fn recorded(heading: &str, begin: Call, buffer_len: usize) -> Recorded {
    let (mut calls, mut answers) = (Vec::new(), Vec::new());
    for [name, stamp, picture, number, answer, _] in rows(heading) {
        let (name, times) = match name.split_once(", ") {
            Some((name, times)) => (name, decimal(times.strip_suffix(" times").unwrap())),
            None => (name, 1),
        };
        let (first, last) = answer.split_once(" to ").unwrap_or((answer, answer));
        let given = decimal::<u64>(first)..=decimal(last);
        assert_eq!(given.clone().count(), times, "{heading}");
        for shot_or_total in given {
            calls.push(match name {
                "begin" => begin.clone(),
                "keep" => Call::Keep {
                    stamp: run_of(stamp),
                    picture: run_of(picture),
                },
                "drop" => Call::Drop,
                "close" => Call::Close,
                _ => panic!("no such call: {name}"),
            });
            answers.push(Answer {
                number: decimal(number),
                mark: 0,
                shot_or_total,
            });
        }
    }
    Recorded {
        calls,
        answers,
        buffer_len,
    }
}

fn begin(key: &str, burst_number: u64, camera: u32, site_mark: &str) -> Call {
    Call::Begin {
        key: run_of(key),
        burst_number,
        camera,
        site_mark: run_of(site_mark),
    }
}

/// The list that makes the second file.
pub fn second_list() -> Recorded {
    let given = "burst number 2^64 - 1, camera number 2^32 - 1, site mark E0 .. EF";
    assert!(says(&format!("\nEdition 2, {given}, and ")));
    assert!(says("\nIn a buffer of 338 bytes this list of calls makes "));
    let begin = begin("00 .. 0F", u64::MAX, u32::MAX, "E0 .. EF");
    recorded("Recording it", begin, 338)
}

/// The list that makes the third file.
pub fn third_list() -> Recorded {
    let given = "burst number 0, camera number 1, site mark 10 .. 1F";
    assert!(says(&format!(
        "\nEdition 2, {given}, in a buffer of 72 bytes:"
    )));
    recorded("The third file", begin("00 .. 0F", 0, 1, "10 .. 1F"), 72)
}

/// The rows of the table of begins, each with a drop and a close after it.
pub fn begins() -> Vec<Recorded> {
    let row = |[key, site_mark, camera, buffer_len, number, _]: [&str; 6]| {
        let begin = begin(key, 0, decimal(camera), site_mark);
        Recorded {
            calls: vec![begin, Call::Drop, Call::Close],
            answers: match decimal(number) {
                0 => [0, 1, 72].map(Answer::accepted).to_vec(),
                number => [number, 8, 8].map(Answer::refused).to_vec(),
            },
            buffer_len: decimal(buffer_len),
        }
    };
    rows("Begins").into_iter().map(row).collect()
}

/// A row of the table of plans: picture lengths, 0 for a dropped shot, and the
/// size or the refusal number.
#[derive(Clone, Debug, PartialEq, Eq)]
pub struct Plan {
    pub lengths: Vec<u64>,
    pub size: Result<Size, u32>,
    pub what: &'static str,
}

/// The lengths of a cell: none, or one by one; `60 of 0` is 0 sixty times.
fn lengths_of(cell: &str) -> Vec<u64> {
    let parts = cell.split(", ").filter(|part| *part != "none");
    let lengths = |part: &str| match part.split_once(" of ") {
        Some((times, length)) => vec![decimal(length); decimal(times)],
        None => vec![decimal(part)],
    };
    parts.flat_map(lengths).collect()
}

pub fn plans() -> Vec<Plan> {
    let plan = |[lengths, number, file_length, p12, p6, what]: [&'static str; 6]| {
        let size = Size {
            file_length: decimal(file_length),
            p12: decimal(p12),
            p6: decimal(p6),
        };
        let number = decimal(number);
        // A refused call answers zeros.
        assert_eq!(size == Size::default(), number != 0, "{lengths}");
        Plan {
            lengths: lengths_of(lengths),
            size: if number == 0 { Ok(size) } else { Err(number) },
            what,
        }
    };
    rows("Plans").into_iter().map(plan).collect()
}

/// The answer, where the number is 0. A refused call answers zeros.
fn answered<T: Debug + Default + PartialEq>(number: &str, answer: T) -> Result<T, u32> {
    match decimal(number) {
        0 => Ok(answer),
        number => {
            assert_eq!(answer, T::default());
            Err(number)
        }
    }
}

/// A row of the table of cards, and what it holds or the refusal number.
#[derive(Clone, Debug, PartialEq, Eq)]
pub struct Card {
    pub card: u64,
    pub shots: u64,
    pub picture: u64,
    pub line: Result<CardLine, u32>,
    pub what: &'static str,
}

pub fn cards() -> Vec<Card> {
    let card = |[card, shots, picture, number, bursts, left, what]: [&'static str; 7]| {
        let line = CardLine {
            bursts: decimal(bursts),
            left: decimal(left),
        };
        Card {
            card: decimal(card),
            shots: decimal(shots),
            picture: decimal(picture),
            line: answered(number, line),
            what,
        }
    };
    rows_of(CARDS, "Cards").into_iter().map(card).collect()
}

/// The headings of the page of cards that have a table under them.
pub fn card_tables() -> Vec<&'static str> {
    tables_of(CARDS)
}

/// Whether these words stand on the page of cards.
pub fn cards_say(words: &str) -> bool {
    CARDS.contains(words)
}

/// A row of the table of fronts: a file without seals, the first front rule
/// that it breaks, check's number, and the last line of the listing.
#[derive(Clone, Debug, PartialEq, Eq)]
pub struct FrontRow {
    pub file: Vec<u8>,
    pub rule: Option<usize>,
    pub number: u32,
    pub line: String,
    pub what: String,
}

/// Shot number, zero, record offset, picture length.
fn entry_of(cell: &str) -> [u8; ENTRY_BYTES] {
    let fields: Vec<&str> = cell.split(' ').collect();
    let [shot, zero, offset, length] = fields[..] else {
        panic!("not an entry: {cell}");
    };
    let entry = Entry {
        shot: decimal(shot),
        zero: decimal(zero),
        offset: decimal(offset),
        length: decimal(length),
    };
    entry.to_bytes()
}

/// The header of a row, from its edition on: 40 bytes where it has a camera
/// number, whatever edition it calls itself.
fn header_of(cells: &[&str; 9]) -> Header {
    let [edition, taken, kept, dropped, picture, index, closing, total, camera] = cells;
    let (layout, camera, zeros) = match camera.split_once(' ') {
        Some((camera, zeros)) => (EDITION_2, decimal(camera), decimal(zeros)),
        None => {
            assert_eq!(*camera, "none");
            (EDITION_1, 0, 0)
        }
    };
    Header {
        edition: Edition {
            number: decimal(edition),
            ..layout
        },
        taken: decimal(taken),
        kept: decimal(kept),
        dropped: decimal(dropped),
        burst_number: 7,
        picture_offset: decimal(picture),
        index_offset: decimal(index),
        closing_offset: decimal(closing),
        total: decimal(total),
        camera,
        zeros,
    }
}

fn front_row(cells: [&str; 14]) -> FrontRow {
    let (bytes, cells) = cells.split_first().unwrap();
    let (header, cells) = cells.split_first_chunk().unwrap();
    let [entries, rule, what, line] = cells else {
        panic!("the columns behind the header");
    };
    let header = header_of(header);
    let mut file = header.to_bytes();
    file.resize(decimal(bytes), 0);
    let mut at = header.index_offset as usize;
    for entry in entries.split(", ").filter(|entry| *entry != "none") {
        file[at..at + ENTRY_BYTES].copy_from_slice(&entry_of(entry));
        at += ENTRY_BYTES;
    }
    let rule = (*rule != "none").then(|| decimal(rule));
    FrontRow {
        file,
        rule,
        number: if rule.is_some() { 12 } else { 7 },
        line: line.trim_matches('`').into(),
        what: what.to_string(),
    }
}

pub fn fronts() -> Vec<FrontRow> {
    rows("Fronts").into_iter().map(front_row).collect()
}

/// The vectors of sealing that are given whole: name, length of the associated
/// data, and message.
const VECTORS: [(&str, usize, &str); 6] = [
    ("empty", 12, "none"),
    ("three bytes", 12, "66 6F 78"),
    ("130 bytes", 12, "00 .. 81"),
    ("associated data of 128 bytes", 128, "66 6F 78"),
    ("associated data of 140 bytes", 140, "66 6F 78"),
    ("associated data of 256 bytes", 256, "66 6F 78"),
];

/// All vectors of sealing. One is given by its tag: the rest is that of a longer
/// message.
pub fn vectors() -> Vec<Part> {
    let part = |associated, message, sealed| Part {
        nonce: counting(0x10, 16)[..].try_into().unwrap(),
        ad: counting(0x30, associated),
        secret: counting(0x20, 16),
        message,
        sealed,
    };
    let whole = |(name, associated, message): (&str, usize, &str)| {
        part(associated, run_of(message), bytes(name))
    };
    let mut vectors = VECTORS.map(whole).to_vec();
    let before_tag = &bytes("130 bytes")[..144];
    let one_block = [before_tag, &bytes("tag of 128 bytes")].concat();
    vectors.push(part(12, counting(0x00, 128), one_block));
    vectors
}

/// Whether the text has these bytes, in hex between backquotes.
pub fn has_bytes(bytes: &[u8]) -> bool {
    let digits: Vec<String> = bytes.iter().map(|byte| format!("{byte:02X}")).collect();
    PAGE.contains(&format!("`{}`", digits.join(" ")))
}

/// Whether these words stand on the page.
pub fn says(words: &str) -> bool {
    PAGE.contains(words)
}
