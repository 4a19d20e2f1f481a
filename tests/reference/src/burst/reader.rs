//! The reader (the scope paper, "The burst file" for the front rules, "Reader"
//! and "Turned down, by example" for the calls; request N1 for edition 2).

use super::layout::{
    open_shot, records_end, ENTRY_BYTES, KEY_BYTES, MOST_SHOTS, SEAL_BYTES, STAMP_BYTES,
};
use super::{Entry, Header, Refusal};

/// Header and index of a file that obeys the front rules.
#[derive(Clone, Debug, PartialEq, Eq)]
pub struct Front {
    pub header: Header,
    pub entries: Vec<Entry>,
}

/// What an accepted check returns; camera number 0 for edition 1.
#[derive(Clone, Copy, Debug, PartialEq, Eq)]
pub struct Checked {
    pub burst_number: u64,
    pub camera: u32,
    pub site_mark: [u8; STAMP_BYTES],
    pub taken: u64,
    pub kept: u64,
    pub dropped: u64,
}

/// What an accepted fetch writes (the picture) and returns.
#[derive(Clone, Debug, PartialEq, Eq)]
pub struct Fetched {
    pub picture: Vec<u8>,
    pub stamp: [u8; STAMP_BYTES],
    pub shot: u64,
    pub length: u64,
}

/// The sealed record of a place as a part of the file. Refused, its offset
/// and its length are 0.
#[derive(Clone, Copy, Debug, PartialEq, Eq)]
pub struct RecordPart {
    pub number: u32,
    pub mark: u32,
    pub offset: usize,
    pub length: usize,
}

/// The front rules that speak of what editions with a camera number have more.
fn camera_is_right(header: &Header) -> bool {
    !header.edition.has_camera || (header.camera != 0 && header.zeros == 0)
}

/// The front rules that speak of the header. No sum wraps here.
fn header_is_right(header: &Header, file_len: usize) -> bool {
    let [taken, kept, dropped] = [header.taken, header.kept, header.dropped].map(u64::from);
    let [index, closing, total] =
        [header.index_offset, header.closing_offset, header.total].map(u64::from);
    header.picture_offset == header.edition.header_bytes as u32
        && camera_is_right(header)
        && taken <= MOST_SHOTS as u64
        && taken == kept + dropped
        && closing == index + ENTRY_BYTES as u64 * kept
        && total == closing + SEAL_BYTES as u64
        && total == file_len as u64
}

/// The front of a file, without a key: 12 when any front rule is broken.
pub fn front(file: &[u8]) -> Result<Front, u32> {
    let header = Header::from_file(file).ok_or(12u32)?;
    if !header_is_right(&header, file.len()) {
        return Err(12);
    }
    let index = &file[header.index_offset as usize..header.closing_offset as usize];
    let entries = index.chunks_exact(ENTRY_BYTES);
    let entries: Vec<Entry> = entries.map(Entry::from_bytes).collect();
    let end = records_end(header.edition, &entries, u64::from(header.taken));
    if end != Some(u64::from(header.index_offset)) {
        return Err(12);
    }
    Ok(Front { header, entries })
}

impl Front {
    /// What one seal holds. Refused with 7, the mark is its shot number.
    fn open(
        &self,
        key: &[u8],
        shot: u16,
        ad: [&[u8]; 2],
        sealed: &[u8],
    ) -> Result<(Vec<u8>, [u8; STAMP_BYTES]), Refusal> {
        let Header {
            burst_number,
            camera,
            ..
        } = self.header;
        let opened = open_shot(key, burst_number, shot, camera, ad, sealed);
        opened.ok_or(Refusal {
            number: 7,
            mark: u32::from(shot),
        })
    }

    /// The site mark under the closing seal, which has shot number 0: its
    /// associated data is header then index.
    fn open_closing(&self, key: &[u8], file: &[u8]) -> Result<[u8; STAMP_BYTES], Refusal> {
        let closing = self.header.closing_offset as usize;
        let index = &file[self.header.index_offset as usize..closing];
        let ad = [&file[..self.header.edition.header_bytes], index];
        let opened = self.open(key, 0, ad, &file[closing..])?;
        Ok(opened.1)
    }

    /// Picture and stamp of an entry.
    fn open_record(
        &self,
        key: &[u8],
        file: &[u8],
        entry: &Entry,
    ) -> Result<(Vec<u8>, [u8; STAMP_BYTES]), Refusal> {
        let record = &file[entry.offset as usize..entry.end() as usize];
        let ad: [&[u8]; 2] = [&entry.to_bytes(), &[]];
        self.open(key, entry.shot, ad, record)
    }
}

/// All of check, and the front it went by.
fn checked_front(key: &[u8], file: &[u8]) -> Result<(Front, Checked), Refusal> {
    if key.len() != KEY_BYTES {
        return Err(Refusal::unmarked(1));
    }
    let front = front(file).map_err(Refusal::unmarked)?;
    let site_mark = front.open_closing(key, file)?;
    for entry in &front.entries {
        front.open_record(key, file, entry)?;
    }
    let checked = Checked {
        burst_number: front.header.burst_number,
        camera: front.header.camera,
        site_mark,
        taken: u64::from(front.header.taken),
        kept: u64::from(front.header.kept),
        dropped: u64::from(front.header.dropped),
    };
    Ok((front, checked))
}

/// Front, closing seal, records in order. Order: 1, 12, 7.
pub fn check(key: &[u8], file: &[u8]) -> Result<Checked, Refusal> {
    checked_front(key, file).map(|(_, checked)| checked)
}

/// The front and the entry of a place. Order: check's, 13.
fn checked_entry(key: &[u8], file: &[u8], place: u64) -> Result<(Front, Entry), Refusal> {
    let (front, checked) = checked_front(key, file)?;
    if place >= checked.kept {
        return Err(Refusal::unmarked(13));
    }
    let entry = front.entries[place as usize];
    Ok((front, entry))
}

/// The picture of a place, for an output of `out_len` bytes. Order: check's,
/// 13, 5.
pub fn fetch(key: &[u8], file: &[u8], place: u64, out_len: usize) -> Result<Fetched, Refusal> {
    let (front, entry) = checked_entry(key, file, place)?;
    if out_len < entry.length as usize {
        return Err(Refusal::unmarked(5));
    }
    let (picture, stamp) = front.open_record(key, file, &entry)?;
    Ok(Fetched {
        picture,
        stamp,
        shot: u64::from(entry.shot),
        length: u64::from(entry.length),
    })
}

/// The sealed record of a place. Order: check's, 13.
pub fn record(key: &[u8], file: &[u8], place: u64) -> RecordPart {
    match checked_entry(key, file, place) {
        Ok((_, entry)) => RecordPart {
            number: 0,
            mark: 0,
            offset: entry.offset as usize,
            length: entry.length as usize + SEAL_BYTES,
        },
        Err(Refusal { number, mark }) => RecordPart {
            number,
            mark,
            offset: 0,
            length: 0,
        },
    }
}
