//! The plain burst of a list of calls (the scope paper, "Recorder", and request
//! N1): worked out from the calls' arguments and the buffer's length alone, in
//! a given edition. It has no buffer, no entries and no running counts, and
//! lays out its file by itself.

use super::layout::{
    Edition, ENTRY_BYTES, KEY_BYTES, LONGEST_PICTURE, MOST_SHOTS, SEAL_BYTES, SHORTEST_PICTURE,
    STAMP_BYTES,
};
use super::Answer;
use crate::sealing::{seal, Variant};

/// One call of a list; key, site mark, stamp and picture may have any length.
#[derive(Clone, Debug, PartialEq, Eq)]
pub enum Call {
    Begin {
        key: Vec<u8>,
        burst_number: u64,
        camera: u32,
        site_mark: Vec<u8>,
    },
    Keep {
        stamp: Vec<u8>,
        picture: Vec<u8>,
    },
    Drop,
    Close,
}

/// A kept picture with its stamp, or a gap.
pub type PlainShot = Option<([u8; STAMP_BYTES], Vec<u8>)>;

/// In an edition without camera number, `camera` is 0 whatever begin was given.
#[derive(Clone, Debug, PartialEq, Eq)]
pub struct PlainBurst {
    pub edition: Edition,
    pub key: [u8; KEY_BYTES],
    pub burst_number: u64,
    pub camera: u32,
    pub site_mark: [u8; STAMP_BYTES],
    pub shots: Vec<PlainShot>,
    pub closed: bool,
}

/// The first number whose condition holds, or 0.
fn first(conditions: &[(u32, bool)]) -> u32 {
    let held = conditions.iter().find(|(_, holds)| *holds);
    held.map_or(0, |(number, _)| *number)
}

impl PlainBurst {
    /// Before any call: closed.
    pub fn at_first(edition: Edition) -> Self {
        PlainBurst {
            edition,
            key: [0; KEY_BYTES],
            burst_number: 0,
            camera: 0,
            site_mark: [0; STAMP_BYTES],
            shots: Vec::new(),
            closed: true,
        }
    }

    /// The kept pictures with their stamps, in the order of the shots.
    pub fn pictures(&self) -> impl Iterator<Item = &([u8; STAMP_BYTES], Vec<u8>)> {
        self.shots.iter().flatten()
    }

    pub fn taken(&self) -> usize {
        self.shots.len()
    }

    pub fn kept(&self) -> usize {
        self.pictures().count()
    }

    pub fn dropped(&self) -> usize {
        self.shots.iter().filter(|shot| shot.is_none()).count()
    }

    /// The picture offset, plus length + 32 for each picture.
    pub fn used(&self) -> usize {
        let record_bytes = |(_, picture): &(_, Vec<u8>)| picture.len() + SEAL_BYTES;
        self.edition.header_bytes + self.pictures().map(record_bytes).sum::<usize>()
    }

    /// Used + 12 kept + 32.
    pub fn total(&self) -> usize {
        self.used() + ENTRY_BYTES * self.kept() + SEAL_BYTES
    }

    /// What keep needs of the buffer for a picture of this length.
    fn keep_need(&self, length: usize) -> usize {
        self.used() + length + SEAL_BYTES + ENTRY_BYTES * (self.kept() + 1) + SEAL_BYTES
    }

    /// The number of a call: the first in its order whose condition holds,
    /// closed standing for not sound.
    fn number(&self, call: &Call, buffer_len: usize) -> u32 {
        let full = self.taken() >= MOST_SHOTS;
        match call {
            Call::Begin {
                key,
                camera,
                site_mark,
                ..
            } => first(&[
                (1, key.len() != KEY_BYTES),
                (3, site_mark.len() != STAMP_BYTES),
                (15, self.edition.has_camera && *camera == 0),
                (11, buffer_len < self.edition.least_file_bytes()),
            ]),
            Call::Keep { stamp, picture } => first(&[
                (8, self.closed),
                (3, stamp.len() != STAMP_BYTES),
                (9, full),
                (10, picture.len() < SHORTEST_PICTURE),
                (10, picture.len() > LONGEST_PICTURE),
                (11, buffer_len < self.keep_need(picture.len())),
            ]),
            Call::Drop => first(&[(8, self.closed), (9, full)]),
            Call::Close => first(&[(8, self.closed), (11, buffer_len < self.total())]),
        }
    }

    /// An accepted call: what it changes, and the shot number or the total.
    fn accept(&mut self, call: &Call) -> usize {
        match call {
            Call::Begin {
                key,
                burst_number,
                camera,
                site_mark,
            } => {
                *self = PlainBurst {
                    edition: self.edition,
                    key: key[..].try_into().unwrap(),
                    burst_number: *burst_number,
                    camera: if self.edition.has_camera { *camera } else { 0 },
                    site_mark: site_mark[..].try_into().unwrap(),
                    shots: Vec::new(),
                    closed: false,
                };
                return 0;
            }
            Call::Keep { stamp, picture } => {
                let stamp = stamp[..].try_into().unwrap();
                self.shots.push(Some((stamp, picture.clone())));
            }
            Call::Drop => self.shots.push(None),
            Call::Close => {
                self.closed = true;
                return self.total();
            }
        }
        self.shots.len()
    }

    /// One call on a buffer of `buffer_len` bytes. A call turned down changes
    /// nothing. Begin comes once, first, so one turned down leaves the burst
    /// closed as it was at first.
    pub fn answer(&mut self, call: &Call, buffer_len: usize) -> Answer {
        match self.number(call, buffer_len) {
            0 => Answer::accepted(self.accept(call) as u64),
            number => Answer::refused(number),
        }
    }

    /// One sealed part of the file; the closing seal has shot number 0.
    fn sealed(&self, shot: usize, secret: &[u8], ad: &[u8], msg: &[u8]) -> Vec<u8> {
        let mut nonce = self.burst_number.to_le_bytes().to_vec();
        nonce.extend((shot as u16).to_le_bytes());
        nonce.extend(self.camera.to_le_bytes());
        nonce.extend([0; 2]);
        let length = msg.len() + SEAL_BYTES;
        let variant = Variant::Icepole128;
        seal(variant, &self.key, &nonce, secret, ad, &[], msg, length).unwrap()
    }

    /// Header, records, index and closing seal, each shot numbered by its
    /// position from 1. This is the burst's file from an accepted close on.
    pub fn file(&self) -> Vec<u8> {
        let (records, index) = self.records_and_index();
        let mut file = self.header();
        file.extend(records);
        file.extend(&index);
        let ad = [self.header(), index].concat();
        file.extend(self.sealed(0, &self.site_mark, &ad, &[]));
        file
    }

    fn header(&self) -> Vec<u8> {
        let mut header = self.edition.number.to_le_bytes().to_vec();
        for count in [self.taken(), self.kept(), self.dropped()] {
            header.extend((count as u16).to_le_bytes());
        }
        header.extend(self.burst_number.to_le_bytes());
        let closing = self.total() - SEAL_BYTES;
        let pictures = self.edition.header_bytes;
        for offset in [pictures, self.used(), closing, self.total()] {
            header.extend((offset as u32).to_le_bytes());
        }
        if self.edition.has_camera {
            header.extend(self.camera.to_le_bytes());
            header.extend([0; 4]);
        }
        header
    }

    fn records_and_index(&self) -> (Vec<u8>, Vec<u8>) {
        let (mut records, mut index) = (Vec::new(), Vec::new());
        for (before, shot) in self.shots.iter().enumerate() {
            if let Some((stamp, picture)) = shot {
                let mut entry = (before as u16 + 1).to_le_bytes().to_vec();
                entry.extend([0; 2]);
                let offset = self.edition.header_bytes + records.len();
                entry.extend((offset as u32).to_le_bytes());
                entry.extend((picture.len() as u32).to_le_bytes());
                records.extend(self.sealed(before + 1, stamp, &entry, picture));
                index.extend(entry);
            }
        }
        (records, index)
    }
}

/// What a whole list gives.
#[derive(Clone, Debug, PartialEq, Eq)]
pub struct Outcome {
    pub answers: Vec<Answer>,
    pub burst: PlainBurst,
    /// The file, if a close was accepted.
    pub file: Option<Vec<u8>>,
}

/// Runs a list on one buffer, as a burst of this edition. A list has exactly
/// one begin, at its front.
pub fn run(edition: Edition, calls: &[Call], buffer_len: usize) -> Outcome {
    let is_begin = |call: &Call| matches!(call, Call::Begin { .. });
    assert!(is_begin(&calls[0]) && !calls[1..].iter().any(is_begin));
    let mut burst = PlainBurst::at_first(edition);
    let answer = |call| burst.answer(call, buffer_len);
    let answers: Vec<Answer> = calls.iter().map(answer).collect();
    let begun = answers[0].number == 0;
    let file = (begun && burst.closed).then(|| burst.file());
    Outcome {
        answers,
        burst,
        file,
    }
}
