//! The front rules ("The burst file", and request N1 for edition 2), each
//! broken alone, in each edition, in a file whose seals are made for the front
//! as it is: a reader without that rule would accept it.

mod help;

use help::{bytes, check_number, CAMERA, KEY, SITE_MARK, STARTS};
use reference::burst::layout::seal_shot;
use reference::burst::lister::list;
use reference::burst::reader::front;
use reference::burst::{Edition, EDITION_2};

/// A file before its seals are made: the bytes of header and index, and where
/// its parts stand.
#[derive(Clone)]
struct Unsealed {
    header: Vec<u8>,
    index: Vec<u8>,
    /// Offset and picture length of each record.
    records: Vec<(usize, usize)>,
    index_at: usize,
    closing_at: usize,
    length: usize,
}

/// Bytes that belong to no part: before the last record, before the index,
/// before the closing seal, and after it.
#[derive(Clone, Copy, Default)]
struct Gaps {
    record: usize,
    index: usize,
    closing: usize,
    end: usize,
}

/// Shot numbers and picture lengths of what is kept, laid out by the rules but
/// for the gaps; the front says where the parts are.
fn laid_out(edition: (Edition, usize), taken: u16, kept: &[(u16, usize)], gaps: Gaps) -> Unsealed {
    let (edition, start) = edition;
    let (mut index, mut records, mut end) = (Vec::new(), Vec::new(), start);
    for (place, (shot, length)) in kept.iter().enumerate() {
        if place + 1 == kept.len() {
            end += gaps.record;
        }
        records.push((end, *length));
        index.extend(shot.to_le_bytes());
        index.extend([0; 2]);
        index.extend((end as u32).to_le_bytes());
        index.extend((*length as u32).to_le_bytes());
        end += length + 32;
    }
    let index_at = end + gaps.index;
    let closing_at = index_at + index.len() + gaps.closing;
    let length = closing_at + 32 + gaps.end;
    let mut header = Vec::new();
    let kept = kept.len() as u16;
    for count in [edition.number, taken, kept, taken.wrapping_sub(kept)] {
        header.extend(count.to_le_bytes());
    }
    header.extend(0x0123_4567_89AB_CDEFu64.to_le_bytes());
    for offset in [start, index_at, closing_at, length] {
        header.extend((offset as u32).to_le_bytes());
    }
    if edition == EDITION_2 {
        header.extend(CAMERA.to_le_bytes());
        header.extend([0; 4]);
    }
    Unsealed {
        header,
        index,
        records,
        index_at,
        closing_at,
        length,
    }
}

/// Shots 1 and 3 of 3 are kept, of 5 and 7 bytes.
const KEPT: [(u16, usize); 2] = [(1, 5), (3, 7)];

fn base(edition: (Edition, usize)) -> Unsealed {
    laid_out(edition, 3, &KEPT, Gaps::default())
}

impl Unsealed {
    /// With other bytes in the header.
    fn with(&self, at: usize, bytes: &[u8]) -> Self {
        let mut other = self.clone();
        other.header[at..at + bytes.len()].copy_from_slice(bytes);
        other
    }

    /// With other bytes in the index.
    fn with_in_index(&self, at: usize, bytes: &[u8]) -> Self {
        let mut other = self.clone();
        other.index[at..at + bytes.len()].copy_from_slice(bytes);
        other
    }

    /// A seal under burst number and camera number as the header has them.
    fn seal(&self, shot: u16, secret: &[u8], ad: [&[u8]; 2], msg: &[u8]) -> Vec<u8> {
        let burst_number = u64::from_le_bytes(self.header[8..16].try_into().unwrap());
        let camera = match self.header.get(32..36) {
            Some(bytes) => u32::from_le_bytes(bytes.try_into().unwrap()),
            None => 0,
        };
        seal_shot(&KEY, burst_number, shot, camera, secret, ad, msg)
    }

    fn file(&self) -> Vec<u8> {
        let mut file = vec![0; self.length];
        let mut put = |at: usize, bytes: &[u8]| file[at..at + bytes.len()].copy_from_slice(bytes);
        put(0, &self.header);
        for (entry, (at, length)) in self.index.chunks(12).zip(&self.records) {
            let shot = u16::from_le_bytes([entry[0], entry[1]]);
            put(
                *at,
                &self.seal(shot, &[9; 16], [entry, &[]], &bytes(4, *length)),
            );
        }
        put(self.index_at, &self.index);
        let ad: [&[u8]; 2] = [&self.header, &self.index];
        put(self.closing_at, &self.seal(0, &SITE_MARK, ad, &[]));
        file
    }
}

fn assert_12(wrong: &Unsealed, what: &str) {
    let file = wrong.file();
    assert_eq!(front(&file), Err(12), "{what}");
    assert_eq!(check_number(&KEY, &file), (12, 0), "{what}");
    if file.len() <= 65_536 {
        assert_eq!(list(&file), "front 12\n", "{what}");
    }
}

#[test]
fn files_that_keep_the_rules() {
    let sixty: Vec<(u16, usize)> = (1..=60).map(|shot| (shot, 1)).collect();
    for edition in STARTS {
        for (taken, kept) in [
            (3, &KEPT[..]),
            (0, &[]),
            (60, &[]),
            (60, &[(60, 1)]),
            (60, &sixty),
            (2, &[(1, 1_048_576), (2, 1)]),
        ] {
            let file = laid_out(edition, taken, kept, Gaps::default()).file();
            assert_eq!(check_number(&KEY, &file), (0, 0), "{taken}");
            assert_eq!(front(&file).unwrap().header.to_bytes(), file[..edition.1]);
        }
    }
    for camera in [1, 1 << 8, 1 << 16, 1 << 24, u32::MAX] {
        let file = base(STARTS[1]).with(32, &camera.to_le_bytes()).file();
        assert_eq!(check_number(&KEY, &file), (0, 0), "camera {camera}");
    }
}

/// A number that no edition has, or the other's.
#[test]
fn edition_number() {
    for (edition, start) in STARTS {
        let right = edition.number;
        for number in [0, 3 - right, 3, 4, right + 256, right << 8, 0xFFFF] {
            let wrong = base((edition, start)).with(0, &number.to_le_bytes());
            assert_12(&wrong, &format!("edition {right} called {number}"));
        }
    }
}

#[test]
fn picture_offset() {
    for (edition, start) in STARTS {
        let right = start as u32;
        for offset in [0, right - 1, right + 1, 72 - right, right + 256, right << 8] {
            let wrong = base((edition, start)).with(16, &offset.to_le_bytes());
            assert_12(&wrong, &format!("picture offset {offset}"));
        }
    }
}

#[test]
fn camera_number_0() {
    assert_12(&base(STARTS[1]).with(32, &[0; 4]), "camera number 0");
}

#[test]
fn zeros_of_the_header() {
    for at in 36..40 {
        for value in [1, 0x80, 0xFF] {
            assert_12(&base(STARTS[1]).with(at, &[value]), &format!("zero {at}"));
        }
    }
}

#[test]
fn counts() {
    let sixty_one: Vec<(u16, usize)> = (1..=61).map(|shot| (shot, 1)).collect();
    for edition in STARTS {
        for (taken, kept) in [
            (61, &[][..]),
            (61, &KEPT),
            (61, &sixty_one),
            (256 + 3, &KEPT),
        ] {
            let wrong = laid_out(edition, taken, kept, Gaps::default());
            assert_12(&wrong, &format!("taken {taken}"));
        }
        for dropped in [0, 2, 257, 0xFFFFu16] {
            let wrong = base(edition).with(6, &dropped.to_le_bytes());
            assert_12(&wrong, &format!("dropped {dropped}"));
        }
        let taken = base(edition).with(2, &[4]);
        assert_12(&taken, "taken 4, kept 2, dropped 1");
    }
}

#[test]
fn shot_numbers() {
    for edition in STARTS {
        for shots in [(0, 1), (1, 1), (3, 3), (2, 1), (1, 4), (4, 5), (1, 0x0103)] {
            let kept = [(shots.0, 5), (shots.1, 7)];
            let wrong = laid_out(edition, 3, &kept, Gaps::default());
            assert_12(&wrong, &format!("shots {shots:?}"));
        }
    }
}

#[test]
fn zeros_of_the_index() {
    for edition in STARTS {
        for at in [2, 3, 14, 15] {
            let wrong = base(edition).with_in_index(at, &[1]);
            assert_12(&wrong, &format!("zero {at}"));
        }
    }
}

#[test]
fn picture_lengths() {
    for edition in STARTS {
        for length in [0, 1_048_577] {
            for kept in [[(1, length), (3, 7)], [(1, 5), (3, length)]] {
                let wrong = laid_out(edition, 3, &kept, Gaps::default());
                assert_12(&wrong, &format!("{kept:?}"));
            }
        }
    }
}

/// The records start elsewhere, with one kept; do not touch, with two; or end
/// before the index, with none too. 8 bytes is what the editions differ by.
#[test]
fn records_touch() {
    for edition in STARTS {
        for gap in [1, 8, 12, 256] {
            let record = Gaps {
                record: gap,
                ..Gaps::default()
            };
            let index = Gaps {
                index: gap,
                ..Gaps::default()
            };
            for kept in [&KEPT[..1], &KEPT] {
                let wrong = laid_out(edition, 3, kept, record);
                assert_12(&wrong, &format!("{gap} before a record"));
            }
            for kept in [&KEPT[..0], &KEPT[..1], &KEPT] {
                let wrong = laid_out(edition, 3, kept, index);
                assert_12(&wrong, &format!("{gap} before the index"));
            }
        }
    }
}

#[test]
fn closing_offset_and_total() {
    for edition in STARTS {
        for gap in [1, 8, 12, 256] {
            let closing = Gaps {
                closing: gap,
                ..Gaps::default()
            };
            let end = Gaps {
                end: gap,
                ..Gaps::default()
            };
            for kept in [&KEPT[..0], &KEPT] {
                let wrong = laid_out(edition, 3, kept, closing);
                assert_12(&wrong, &format!("{gap} before the closing seal"));
                let wrong = laid_out(edition, 3, kept, end);
                assert_12(&wrong, &format!("{gap} after it"));
                let right = laid_out(edition, 3, kept, Gaps::default());
                let longer = Unsealed {
                    length: right.length + gap,
                    ..right
                };
                assert_12(&longer, &format!("{gap} that the total leaves out"));
            }
        }
    }
}
