//! The layout of a file as a picture in text. It needs no key.

use crate::files::{self, Burst, Input};
use crate::layout::{self, Entry, Field, Header, ENTRY_BYTES, SEAL_BYTES};
use crate::library::{self, MAX_FILE_BYTES};
use crate::messages::{Failure, FRONT_EXPLAINED};

const FRONT_BROKEN: u32 = 12;

/// How wide a box is inside.
const WIDTH: usize = 60;

/// `burst explain`.
pub fn explain(file: &Input) -> Result<(), Failure> {
    let Burst { name, bytes } = files::read_burst(file)?;
    match Header::of(&bytes) {
        Some(header) if front_is_right(&bytes) => files::print(&drawing(&bytes, &header)),
        _ => {
            files::print(&broken(&bytes))?;
            Err(Failure::Refused {
                number: FRONT_BROKEN,
                about: name,
                advice: FRONT_EXPLAINED,
            })
        }
    }
}

/// Check looks at the front before it uses the key, so that any key of 16
/// bytes shows whether the front is right.
fn front_is_right(file: &[u8]) -> bool {
    match library::check(&[0; 16], file) {
        Ok(_) => true,
        Err(refused) => refused.number != FRONT_BROKEN,
    }
}

/// Boxes one below the other, with the offset of each at its upper edge.
struct Boxes {
    text: String,
    offset: u64,
}

impl Boxes {
    fn edge(&mut self) {
        let line = "-".repeat(WIDTH + 2);
        self.text += &format!("{:>10} +{line}+\n", self.offset);
    }

    fn line(&mut self, words: &str) {
        self.text += &format!("{:>10} | {words:<WIDTH$} |\n", "");
    }

    /// A part of the file, and what stands in it.
    fn part(&mut self, name: &str, length: u64, lines: &[String]) {
        self.edge();
        let length_words = format!("{length} bytes");
        let room = WIDTH - name.chars().count();
        self.line(&format!("{name}{length_words:>room$}"));
        for line in lines {
            self.line(&format!("  {line}"));
        }
        self.offset += length;
    }
}

/// The layout of a file whose front is right.
fn drawing(file: &[u8], header: &Header) -> String {
    let entries = layout::entries(file, header);
    let mut boxes = Boxes {
        text: format!(
            "front right, {} bytes; the offset stands at each edge\n",
            file.len()
        ),
        offset: 0,
    };
    boxes.part("header", header.picture_offset, &header_lines(header));
    for (place, entry) in entries.iter().enumerate() {
        let name = format!("record of shot {}, place {place}", entry.shot);
        let parts = format!("sealed stamp 16, sealed picture {}, tag 16", entry.length);
        boxes.part(&name, entry.length + SEAL_BYTES, &[parts]);
    }
    let lines: Vec<String> = entries.iter().enumerate().map(index_line).collect();
    boxes.part("index", ENTRY_BYTES * header.kept, &lines);
    let parts = ["sealed site mark 16, tag 16".to_string()];
    boxes.part("closing seal", SEAL_BYTES, &parts);
    boxes.edge();
    boxes.text += &gaps(header, &entries);
    boxes.text += "Tags were not looked at: that takes the key and `burst check`.\n";
    boxes.text
}

fn header_lines(header: &Header) -> Vec<String> {
    let h = header;
    let mut lines = vec![
        format!("edition {}, burst {}", h.edition, h.burst_number),
        format!("taken {} kept {} dropped {}", h.taken, h.kept, h.dropped),
        format!(
            "pictures from {}, index at {}",
            h.picture_offset, h.index_offset
        ),
        format!(
            "closing seal at {}, total length {}",
            h.closing_offset, h.total
        ),
    ];
    let line = |camera| format!("camera {camera}, four zeros");
    lines.extend(h.camera.map(line));
    lines
}

fn index_line((place, entry): (usize, &Entry)) -> String {
    let Entry {
        shot,
        offset,
        length,
        ..
    } = entry;
    format!("place {place}: shot {shot} at {offset} length {length}")
}

/// The shots that no entry has.
fn gaps(header: &Header, entries: &[Entry]) -> String {
    let kept = |shot: &u64| entries.iter().any(|entry| entry.shot == *shot);
    let gaps: Vec<String> = (1..=header.taken)
        .filter(|shot| !kept(shot))
        .map(|shot| shot.to_string())
        .collect();
    match gaps.is_empty() {
        true => "No shot was dropped.\n".into(),
        false => format!("Dropped shots: {}.\n", gaps.join(", ")),
    }
}

/// What a broken front says, as far as its bytes are there.
fn broken(file: &[u8]) -> String {
    let length = match file.len() > MAX_FILE_BYTES {
        true => format!("more than {MAX_FILE_BYTES}, the largest burst,"),
        false => file.len().to_string(),
    };
    let mut text = format!("front 12: a front rule is broken\nThe file has {length} bytes.");
    text += " The bytes of its header say:\n\n    offset  length  field\n";
    for field in layout::fields(file) {
        text += &field_line(file, field);
    }
    text += "\nBroken rules, by their numbers in docs/FORMAT.md:\n";
    for (number, words) in layout::broken_rules(file) {
        text += &format!("  rule {number}: {words}\n");
    }
    text
}

fn field_line(file: &[u8], field: &Field) -> String {
    let Field {
        offset,
        length,
        name,
    } = field;
    let value = match layout::number(file, *offset, *length) {
        Some(number) => number.to_string(),
        None => "not there, the file ends before".into(),
    };
    format!("{offset:>10}{length:>8}  {name:<14}  {value}\n")
}
