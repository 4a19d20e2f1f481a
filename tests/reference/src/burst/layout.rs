//! The layout of a burst file: its editions, sizes, header, index entries and
//! seals (the scope paper, "The burst file", and request N1).

use crate::sealing::{open, seal, Variant};

/// What one edition of the file has of its own.
#[derive(Clone, Copy, Debug, PartialEq, Eq)]
pub struct Edition {
    pub number: u16,
    /// The header; the records follow it, so this is also the picture offset.
    pub header_bytes: usize,
    /// Whether header and nonce hold a camera number, which is then not 0.
    pub has_camera: bool,
}

pub const EDITION_1: Edition = Edition {
    number: 1,
    header_bytes: 32,
    has_camera: false,
};

/// The edition that the recorder writes.
pub const EDITION_2: Edition = Edition {
    number: 2,
    header_bytes: 40,
    has_camera: true,
};

/// The editions that the reader takes.
pub const EDITIONS: [Edition; 2] = [EDITION_1, EDITION_2];

impl Edition {
    /// The shortest file: header and closing seal.
    pub const fn least_file_bytes(&self) -> usize {
        self.header_bytes + SEAL_BYTES
    }
}

/// One index entry.
pub const ENTRY_BYTES: usize = 12;

/// What a sealed message is longer than its message; the whole closing seal.
pub const SEAL_BYTES: usize = 32;

/// The most shots of a burst.
pub const MOST_SHOTS: usize = 60;

/// The shortest and the longest picture.
pub const SHORTEST_PICTURE: usize = 1;
pub const LONGEST_PICTURE: usize = 1_048_576;

/// The key.
pub const KEY_BYTES: usize = 16;

/// A stamp or a site mark.
pub const STAMP_BYTES: usize = 16;

/// The first bytes of a slice, as an array.
fn front_bytes<const N: usize>(bytes: &[u8]) -> [u8; N] {
    bytes[..N].try_into().unwrap()
}

/// The little-endian numbers of 2, 4 and 8 bytes at an offset.
fn number_of_2(bytes: &[u8], at: usize) -> u16 {
    u16::from_le_bytes(front_bytes(&bytes[at..]))
}

fn number_of_4(bytes: &[u8], at: usize) -> u32 {
    u32::from_le_bytes(front_bytes(&bytes[at..]))
}

fn number_of_8(bytes: &[u8], at: usize) -> u64 {
    u64::from_le_bytes(front_bytes(&bytes[at..]))
}

/// The header of counts and offsets. In an edition without camera number,
/// `camera` and the zeros after it are not in the header.
#[derive(Clone, Copy, Debug, PartialEq, Eq)]
pub struct Header {
    pub edition: Edition,
    pub taken: u16,
    pub kept: u16,
    pub dropped: u16,
    pub burst_number: u64,
    pub picture_offset: u32,
    pub index_offset: u32,
    pub closing_offset: u32,
    pub total: u32,
    pub camera: u32,
    pub zeros: u32,
}

impl Header {
    /// The 32 or 40 bytes that the edition has.
    pub fn to_bytes(&self) -> Vec<u8> {
        let mut bytes = vec![0; self.edition.header_bytes];
        bytes[0..2].copy_from_slice(&self.edition.number.to_le_bytes());
        bytes[2..4].copy_from_slice(&self.taken.to_le_bytes());
        bytes[4..6].copy_from_slice(&self.kept.to_le_bytes());
        bytes[6..8].copy_from_slice(&self.dropped.to_le_bytes());
        bytes[8..16].copy_from_slice(&self.burst_number.to_le_bytes());
        bytes[16..20].copy_from_slice(&self.picture_offset.to_le_bytes());
        bytes[20..24].copy_from_slice(&self.index_offset.to_le_bytes());
        bytes[24..28].copy_from_slice(&self.closing_offset.to_le_bytes());
        bytes[28..32].copy_from_slice(&self.total.to_le_bytes());
        if self.edition.has_camera {
            bytes[32..36].copy_from_slice(&self.camera.to_le_bytes());
            bytes[36..40].copy_from_slice(&self.zeros.to_le_bytes());
        }
        bytes
    }

    /// The header at the front of at least as many bytes as an edition's header
    /// has; the number is the one that stands there. `camera` and `zeros` are 0
    /// where the edition has none.
    pub fn from_bytes(edition: Edition, bytes: &[u8]) -> Self {
        let (camera, zeros) = match edition.has_camera {
            true => (number_of_4(bytes, 32), number_of_4(bytes, 36)),
            false => (0, 0),
        };
        Header {
            edition: Edition {
                number: number_of_2(bytes, 0),
                ..edition
            },
            taken: number_of_2(bytes, 2),
            kept: number_of_2(bytes, 4),
            dropped: number_of_2(bytes, 6),
            burst_number: number_of_8(bytes, 8),
            picture_offset: number_of_4(bytes, 16),
            index_offset: number_of_4(bytes, 20),
            closing_offset: number_of_4(bytes, 24),
            total: number_of_4(bytes, 28),
            camera,
            zeros,
        }
    }

    /// The header of a file, if its edition number is one of ours and it is as
    /// long as the shortest file of that edition.
    pub fn from_file(file: &[u8]) -> Option<Self> {
        let number = number_of_2(file.get(..2)?, 0);
        let edition = EDITIONS.into_iter().find(|row| row.number == number)?;
        let is_whole = file.len() >= edition.least_file_bytes();
        is_whole.then(|| Header::from_bytes(edition, file))
    }
}

/// An index entry, for one kept picture.
#[derive(Clone, Copy, Debug, PartialEq, Eq)]
pub struct Entry {
    pub shot: u16,
    pub zero: u16,
    pub offset: u32,
    pub length: u32,
}

impl Entry {
    pub const ZERO: Entry = Entry {
        shot: 0,
        zero: 0,
        offset: 0,
        length: 0,
    };

    pub fn to_bytes(&self) -> [u8; ENTRY_BYTES] {
        let mut bytes = [0; ENTRY_BYTES];
        bytes[0..2].copy_from_slice(&self.shot.to_le_bytes());
        bytes[2..4].copy_from_slice(&self.zero.to_le_bytes());
        bytes[4..8].copy_from_slice(&self.offset.to_le_bytes());
        bytes[8..12].copy_from_slice(&self.length.to_le_bytes());
        bytes
    }

    /// The entry at the front of at least 12 bytes.
    pub fn from_bytes(bytes: &[u8]) -> Self {
        Entry {
            shot: number_of_2(bytes, 0),
            zero: number_of_2(bytes, 2),
            offset: number_of_4(bytes, 4),
            length: number_of_4(bytes, 8),
        }
    }

    /// The zeros are zero, and the length is in range.
    fn is_in_range(&self) -> bool {
        let lengths = SHORTEST_PICTURE..=LONGEST_PICTURE;
        self.zero == 0 && lengths.contains(&(self.length as usize))
    }

    /// Offset + length + 32, which does not wrap here.
    pub fn end(&self) -> u64 {
        u64::from(self.offset) + u64::from(self.length) + SEAL_BYTES as u64
    }
}

/// Where the records end, if the entries obey the index rules: shot numbers
/// rise strictly within 1 to taken, zeros are zero, lengths are in range, and
/// records touch, from the edition's picture offset. Without entries they end
/// there.
pub fn records_end(edition: Edition, entries: &[Entry], taken: u64) -> Option<u64> {
    let mut last_shot = 0;
    let mut end = edition.header_bytes as u64;
    for entry in entries {
        let rises = last_shot < entry.shot && u64::from(entry.shot) <= taken;
        if !rises || !entry.is_in_range() || u64::from(entry.offset) != end {
            return None;
        }
        last_shot = entry.shot;
        end = entry.end();
    }
    Some(end)
}

/// Burst number, shot number, camera number, two zeros. The closing seal has
/// shot number 0, edition 1 has camera number 0.
pub fn nonce(burst_number: u64, shot: u16, camera: u32) -> [u8; 16] {
    let mut nonce = [0; 16];
    nonce[..8].copy_from_slice(&burst_number.to_le_bytes());
    nonce[8..10].copy_from_slice(&shot.to_le_bytes());
    nonce[10..14].copy_from_slice(&camera.to_le_bytes());
    nonce
}

/// A record, or with shot number 0 and an empty message the closing seal. The
/// associated data is lent in two parts.
pub fn seal_shot(
    key: &[u8],
    burst_number: u64,
    shot: u16,
    camera: u32,
    secret: &[u8],
    ad: [&[u8]; 2],
    msg: &[u8],
) -> Vec<u8> {
    let nonce = nonce(burst_number, shot, camera);
    let length = msg.len() + SEAL_BYTES;
    let sealed = seal(
        Variant::Icepole128,
        key,
        &nonce,
        secret,
        ad[0],
        ad[1],
        msg,
        length,
    );
    sealed.expect("the lengths are right")
}

/// The picture and its stamp, or for the closing seal nothing and the site
/// mark; none of them when the tag differs.
pub fn open_shot(
    key: &[u8],
    burst_number: u64,
    shot: u16,
    camera: u32,
    ad: [&[u8]; 2],
    sealed: &[u8],
) -> Option<(Vec<u8>, [u8; STAMP_BYTES])> {
    let nonce = nonce(burst_number, shot, camera);
    let length = sealed.len() - SEAL_BYTES;
    let opened = open(
        Variant::Icepole128,
        key,
        &nonce,
        ad[0],
        ad[1],
        sealed,
        length,
        Variant::Icepole128.info_bytes(),
    );
    match opened {
        Ok((msg, secret)) => Some((msg, front_bytes(&secret))),
        Err(number) => {
            assert_eq!(number, 7, "the lengths are right");
            None
        }
    }
}
