//! The recorder on a real buffer (the scope paper, "Recorder"). It writes
//! edition 2 (request N1).

use super::layout::{
    records_end, seal_shot, EDITION_2, ENTRY_BYTES, KEY_BYTES, LONGEST_PICTURE, MOST_SHOTS,
    SEAL_BYTES, SHORTEST_PICTURE, STAMP_BYTES,
};
use super::{Answer, Entry, Header};

/// Anybody may make one, with any values; keep, drop and close test it in full.
#[derive(Clone, Debug, PartialEq, Eq)]
pub struct Recorder {
    pub key: [u8; KEY_BYTES],
    pub burst_number: u64,
    pub camera: u32,
    pub site_mark: [u8; STAMP_BYTES],
    pub taken: u64,
    pub kept: u64,
    pub used: u64,
    pub entries: [Entry; MOST_SHOTS],
    pub closed: bool,
}

/// Bytes that replace those at an offset; the others stay.
fn write(buffer: &mut [u8], at: usize, bytes: &[u8]) {
    buffer[at..at + bytes.len()].copy_from_slice(bytes);
}

impl Recorder {
    /// What a begin turned down returns: closed, otherwise zero.
    pub const REFUSED: Recorder = Recorder {
        key: [0; KEY_BYTES],
        burst_number: 0,
        camera: 0,
        site_mark: [0; STAMP_BYTES],
        taken: 0,
        kept: 0,
        used: 0,
        entries: [Entry::ZERO; MOST_SHOTS],
        closed: true,
    };

    /// Not closed, taken at most 60, kept at most taken, and the first kept
    /// entries obey the index rules and end at bytes used. The camera number is
    /// not looked at.
    pub fn is_sound(&self) -> bool {
        if self.closed || self.taken > MOST_SHOTS as u64 || self.kept > self.taken {
            return false;
        }
        let entries = &self.entries[..self.kept as usize];
        records_end(EDITION_2, entries, self.taken) == Some(self.used)
    }

    /// Zeros the first 40 bytes of the buffer. Order: 1, 3, 15, 11.
    pub fn begin(
        key: &[u8],
        burst_number: u64,
        camera: u32,
        site_mark: &[u8],
        buffer: &mut [u8],
    ) -> (Recorder, Answer) {
        let refused = |number| (Recorder::REFUSED, Answer::refused(number));
        let Ok(key) = key.try_into() else {
            return refused(1);
        };
        let Ok(site_mark) = site_mark.try_into() else {
            return refused(3);
        };
        if camera == 0 {
            return refused(15);
        }
        if buffer.len() < EDITION_2.least_file_bytes() {
            return refused(11);
        }
        write(buffer, 0, &[0; EDITION_2.header_bytes]);
        let recorder = Recorder {
            key,
            burst_number,
            camera,
            site_mark,
            used: EDITION_2.header_bytes as u64,
            closed: false,
            ..Recorder::REFUSED
        };
        (recorder, Answer::accepted(0))
    }

    /// Order: 8, 3, 9, 10, 11.
    fn refusal_of_keep(&self, stamp: &[u8], picture: &[u8], buffer: &[u8]) -> Option<u32> {
        if !self.is_sound() {
            return Some(8);
        }
        if stamp.len() != STAMP_BYTES {
            return Some(3);
        }
        if self.taken == MOST_SHOTS as u64 {
            return Some(9);
        }
        if !(SHORTEST_PICTURE..=LONGEST_PICTURE).contains(&picture.len()) {
            return Some(10);
        }
        let record_end = self.used as usize + picture.len() + SEAL_BYTES;
        let index_bytes = ENTRY_BYTES * (self.kept as usize + 1);
        if buffer.len() < record_end + index_bytes + SEAL_BYTES {
            return Some(11);
        }
        None
    }

    /// A record, or with shot number 0 the closing seal.
    fn seal(&self, shot: u16, secret: &[u8], ad: [&[u8]; 2], msg: &[u8]) -> Vec<u8> {
        let Recorder {
            key,
            burst_number,
            camera,
            ..
        } = self;
        seal_shot(key, *burst_number, shot, *camera, secret, ad, msg)
    }

    /// One record at bytes used, one entry at place kept; then taken and kept
    /// are one more, and used is past the record.
    pub fn keep(&mut self, stamp: &[u8], picture: &[u8], buffer: &mut [u8]) -> Answer {
        if let Some(number) = self.refusal_of_keep(stamp, picture, buffer) {
            return Answer::refused(number);
        }
        self.taken += 1;
        let entry = Entry {
            shot: self.taken as u16,
            zero: 0,
            offset: self.used as u32,
            length: picture.len() as u32,
        };
        let ad: [&[u8]; 2] = [&entry.to_bytes(), &[]];
        let record = self.seal(entry.shot, stamp, ad, picture);
        write(buffer, self.used as usize, &record);
        self.entries[self.kept as usize] = entry;
        self.kept += 1;
        self.used += record.len() as u64;
        Answer::accepted(self.taken)
    }

    /// Taken is one more. Order: 8, 9.
    pub fn drop_shot(&mut self) -> Answer {
        if !self.is_sound() {
            return Answer::refused(8);
        }
        if self.taken == MOST_SHOTS as u64 {
            return Answer::refused(9);
        }
        self.taken += 1;
        Answer::accepted(self.taken)
    }

    /// The header of a sound recorder.
    fn header(&self) -> Header {
        let closing_offset = self.used as u32 + (ENTRY_BYTES as u32) * self.kept as u32;
        Header {
            edition: EDITION_2,
            taken: self.taken as u16,
            kept: self.kept as u16,
            dropped: (self.taken - self.kept) as u16,
            burst_number: self.burst_number,
            picture_offset: EDITION_2.header_bytes as u32,
            index_offset: self.used as u32,
            closing_offset,
            total: closing_offset + SEAL_BYTES as u32,
            camera: self.camera,
            zeros: 0,
        }
    }

    /// Writes header, index and closing seal, and marks closed. Order: 8, 11.
    pub fn close(&mut self, buffer: &mut [u8]) -> Answer {
        if !self.is_sound() {
            return Answer::refused(8);
        }
        let header = self.header();
        if buffer.len() < header.total as usize {
            return Answer::refused(11);
        }
        let entries = self.entries[..self.kept as usize].iter();
        let index = entries.flat_map(Entry::to_bytes).collect::<Vec<u8>>();
        let ad: [&[u8]; 2] = [&header.to_bytes(), &index];
        let closing = self.seal(0, &self.site_mark, ad, &[]);
        write(buffer, 0, &header.to_bytes());
        write(buffer, header.index_offset as usize, &index);
        write(buffer, header.closing_offset as usize, &closing);
        self.closed = true;
        Answer::accepted(u64::from(header.total))
    }
}
