//! The fields of a burst file's front, and which front rules they break, for
//! people to read. Whether a front is right, the library decides.

use crate::library::{self, MAX_FILE_BYTES, MAX_PICTURE_BYTES, MAX_SHOTS};

pub const ENTRY_BYTES: u64 = library::ENTRY_BYTES as u64;
pub const SEAL_BYTES: u64 = library::SEAL_BYTES as u64;
const MIN_READ_BYTES: u64 = library::MIN_READ_BYTES as u64;

/// An edition, and how long its header is.
struct Edition {
    number: u64,
    header_bytes: u64,
}

const fn edition(number: u64, header_bytes: u64) -> Edition {
    Edition {
        number,
        header_bytes,
    }
}

const EDITIONS: [Edition; 2] = [edition(1, 32), edition(2, 40)];

impl Edition {
    fn of(number: u64) -> Option<&'static Edition> {
        EDITIONS.iter().find(|edition| edition.number == number)
    }

    /// The shortest file: header and closing seal.
    fn min_file_bytes(&self) -> u64 {
        self.header_bytes + SEAL_BYTES
    }
}

/// A field of the header.
pub struct Field {
    pub offset: usize,
    pub length: usize,
    pub name: &'static str,
}

const fn field(offset: usize, length: usize, name: &'static str) -> Field {
    Field {
        offset,
        length,
        name,
    }
}

const FIELDS: [Field; 11] = [
    field(0, 2, "edition"),
    field(2, 2, "taken"),
    field(4, 2, "kept"),
    field(6, 2, "dropped"),
    field(8, 8, "burst number"),
    field(16, 4, "picture offset"),
    field(20, 4, "index offset"),
    field(24, 4, "closing offset"),
    field(28, 4, "total length"),
    field(32, 4, "camera number"),
    field(36, 4, "zeros"),
];

/// The fields that a file's header has in its edition. Every header has those
/// of edition 1, and so has one of no edition.
pub fn fields(file: &[u8]) -> impl Iterator<Item = &'static Field> {
    let edition = number(file, 0, 2).and_then(Edition::of);
    let end = edition.unwrap_or(&EDITIONS[0]).header_bytes as usize;
    FIELDS.iter().filter(move |field| field.offset < end)
}

/// The little-endian number of some bytes, if the file has them.
pub fn number(file: &[u8], offset: usize, length: usize) -> Option<u64> {
    let bytes = file.get(offset..offset.checked_add(length)?)?;
    Some(
        bytes
            .iter()
            .rev()
            .fold(0, |sum, byte| sum << 8 | u64::from(*byte)),
    )
}

/// The header. Its numbers are all held in 64 bits, so that no sum of lengths
/// and offsets wraps.
pub struct Header {
    pub edition: u64,
    pub taken: u64,
    pub kept: u64,
    pub dropped: u64,
    pub burst_number: u64,
    pub picture_offset: u64,
    pub index_offset: u64,
    pub closing_offset: u64,
    pub total: u64,
    /// From edition 2 on, if the file has it.
    pub camera: Option<u64>,
    zeros: Option<u64>,
}

impl Header {
    /// The header of a file, if the file has all of it that edition 1 has.
    pub fn of(file: &[u8]) -> Option<Self> {
        let value = |at| {
            let field = fields(file).nth(at)?;
            number(file, field.offset, field.length)
        };
        Some(Header {
            edition: value(0)?,
            taken: value(1)?,
            kept: value(2)?,
            dropped: value(3)?,
            burst_number: value(4)?,
            picture_offset: value(5)?,
            index_offset: value(6)?,
            closing_offset: value(7)?,
            total: value(8)?,
            camera: value(9),
            zeros: value(10),
        })
    }
}

/// An index entry.
pub struct Entry {
    pub shot: u64,
    pub zero: u64,
    pub offset: u64,
    pub length: u64,
}

impl Entry {
    /// Where the record ends.
    pub fn end(&self) -> u64 {
        self.offset + self.length + SEAL_BYTES
    }
}

/// The index entries, as many of them as the file has.
pub fn entries(file: &[u8], header: &Header) -> Vec<Entry> {
    let entry = |place: u64| {
        let at = usize::try_from(header.index_offset + ENTRY_BYTES * place).ok()?;
        Some(Entry {
            shot: number(file, at, 2)?,
            zero: number(file, at + 2, 2)?,
            offset: number(file, at + 4, 4)?,
            length: number(file, at + 8, 4)?,
        })
    };
    (0..header.kept).map_while(entry).collect()
}

/// A front rule that is broken: its number in docs/FORMAT.md, and how.
pub type Broken = (u8, String);

/// The front rules that a file breaks: all those of header and length; only if
/// there are none of these, the first one of the index.
pub fn broken_rules(file: &[u8]) -> Vec<Broken> {
    let length = file.len() as u64;
    let mut broken = Vec::new();
    if length < MIN_READ_BYTES {
        broken.push((
            1,
            format!("a burst file has at least {MIN_READ_BYTES} bytes"),
        ));
    }
    if let Some(header) = Header::of(file) {
        broken.extend(broken_edition(&header, length));
        broken.extend(broken_header(&header, length));
        if broken.is_empty() {
            broken.extend(broken_index(&header, &entries(file, &header)));
        }
    }
    broken
}

/// Broken, where a value is not the one it must be.
fn unlike(rule: u8, name: &str, value: u64, wanted: u64, why: &str) -> Option<Broken> {
    let words = || format!("{name} is {value}, and must be {wanted}{why}");
    (value != wanted).then(|| (rule, words()))
}

/// The rules of the edition that are broken.
fn broken_edition(header: &Header, length: u64) -> Vec<Broken> {
    let Some(edition) = Edition::of(header.edition) else {
        let words = format!("edition is {}, and must be 1 or 2", header.edition);
        return vec![(2, words)];
    };
    let (offset, number) = (header.picture_offset, edition.number);
    let min = edition.min_file_bytes();
    let short = format!("a file of edition {number} has at least {min} bytes");
    let no_camera = "camera number is 0, and must be 1 or more".into();
    let not_zero = |n| format!("the four bytes 36 to 39 are {n}, and must be 0");
    let why = format!(" in edition {number}");
    let rules = [
        // Rule 1 says as much of edition 1.
        (min > MIN_READ_BYTES && length < min).then_some((2, short)),
        unlike(3, "picture offset", offset, edition.header_bytes, &why),
        (header.camera == Some(0)).then_some((4, no_camera)),
        header.zeros.filter(|n| *n != 0).map(|n| (4, not_zero(n))),
    ];
    rules.into_iter().flatten().collect()
}

/// The rules of counts, offsets and the file's length that are broken.
fn broken_header(header: &Header, length: u64) -> impl Iterator<Item = Broken> {
    let h = header;
    let taken = h.taken;
    let too_many = (5, format!("taken is {taken}, and is at most {MAX_SHOTS}"));
    let sum = h.kept + h.dropped;
    let index_end = h.index_offset + ENTRY_BYTES * h.kept;
    let closing = h.closing_offset;
    let seal_end = closing + SEAL_BYTES;
    // A file is read no further than one byte past the largest burst.
    let file_length = match length > MAX_FILE_BYTES as u64 {
        true => " or more, the file's length",
        false => ", the file's length",
    };
    let rules = [
        (taken > MAX_SHOTS as u64).then_some(too_many),
        unlike(5, "taken", taken, sum, ", kept and dropped together"),
        unlike(6, "closing offset", closing, index_end, ", the index's end"),
        unlike(
            7,
            "total length",
            h.total,
            seal_end,
            ", the closing seal's end",
        ),
        unlike(7, "total length", h.total, length, file_length),
    ];
    rules.into_iter().flatten()
}

/// The first index rule that is broken.
fn broken_index(header: &Header, entries: &[Entry]) -> Option<Broken> {
    let (mut shot_before, mut end) = (0, header.picture_offset);
    for (place, entry) in entries.iter().enumerate() {
        let broken = broken_entry(entry, shot_before, header.taken, end);
        if let Some((number, words)) = broken {
            return Some((number, format!("at place {place}: {words}")));
        }
        (shot_before, end) = (entry.shot, entry.end());
    }
    let index = header.index_offset;
    unlike(10, "index offset", index, end, ", the records' end")
}

fn broken_entry(entry: &Entry, shot_before: u64, taken: u64, offset: u64) -> Option<Broken> {
    let shot = entry.shot;
    if shot <= shot_before || shot > taken {
        let words = format!("shot {shot} after shot {shot_before}, with {taken} shots taken");
        return Some((8, words));
    }
    let length = entry.length;
    if length < 1 || length > MAX_PICTURE_BYTES as u64 {
        return Some((9, format!("the picture length is {length}")));
    }
    let zero = unlike(9, "the zero field", entry.zero, 0, "");
    zero.or_else(|| unlike(10, "the record offset", entry.offset, offset, ""))
}
