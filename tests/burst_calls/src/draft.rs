//! Files whose fronts need not obey the rules, though their seals are right.

use crate::list::{bytes, CAMERA, KEY, SITE_MARK};
use reference::burst::layout::seal_shot;
use reference::burst::{Edition, Entry, Header};

const BURST: u64 = 0x0123_4567_89AB_CDEF;

/// A file that need not obey the rules: what its front says, and where its
/// parts really stand.
#[derive(Clone)]
pub struct Draft {
    pub header: Header,
    pub entries: Vec<Entry>,
    /// Where each record stands, and the length of its picture.
    pub records: Vec<(usize, usize)>,
    pub index_at: usize,
    pub closing_at: usize,
    pub length: usize,
}

/// Shots and lengths of kept pictures, laid out by the rules.
pub fn draft(edition: Edition, taken: u16, kept: &[(u16, u32)]) -> Draft {
    let header = Header {
        edition,
        taken,
        kept: kept.len() as u16,
        dropped: taken.wrapping_sub(kept.len() as u16),
        burst_number: BURST,
        picture_offset: edition.header_bytes as u32,
        index_offset: 0,
        closing_offset: 0,
        total: 0,
        camera: if edition.has_camera { CAMERA } else { 0 },
        zeros: 0,
    };
    let entry = |(shot, length): &(u16, u32)| Entry {
        shot: *shot,
        zero: 0,
        offset: 0,
        length: *length,
    };
    let mut draft = Draft {
        header,
        entries: kept.iter().map(entry).collect(),
        records: Vec::new(),
        index_at: 0,
        closing_at: 0,
        length: 0,
    };
    draft.lay_out(header.picture_offset);
    draft
}

/// Shot 1 of 5 bytes and shot 3 of 7 bytes, of 3 taken.
pub fn base(edition: Edition) -> Draft {
    draft(edition, 3, &[(1, 5), (3, 7)])
}

/// The base with a change; the change lays out again where it must.
pub fn changed(edition: Edition, change: impl Fn(&mut Draft)) -> Draft {
    let mut draft = base(edition);
    change(&mut draft);
    draft
}

fn put(file: &mut [u8], at: usize, bytes: &[u8]) {
    file[at..at + bytes.len()].copy_from_slice(bytes);
}

impl Draft {
    /// The records touch, from `start` on; index and closing seal follow.
    pub fn lay_out(&mut self, start: u32) {
        let mut offset = start;
        for entry in &mut self.entries {
            entry.offset = offset;
            offset += entry.length + 32;
        }
        self.lay_out_index(offset);
    }

    /// The records stand where the entries say.
    pub fn lay_out_index(&mut self, at: u32) {
        let record = |entry: &Entry| (entry.offset as usize, entry.length as usize);
        self.records = self.entries.iter().map(record).collect();
        self.index_at = at as usize;
        self.header.index_offset = at;
        self.lay_out_closing(at + 12 * self.entries.len() as u32);
    }

    pub fn lay_out_closing(&mut self, at: u32) {
        self.closing_at = at as usize;
        self.header.closing_offset = at;
        self.header.total = at + 32;
        self.length = self.header.total as usize;
    }

    fn index(&self) -> Vec<u8> {
        self.entries.iter().flat_map(Entry::to_bytes).collect()
    }

    fn put_front(&self, file: &mut [u8]) {
        put(file, 0, &self.header.to_bytes());
        put(file, self.index_at, &self.index());
    }

    /// The bytes, every seal worked out from the front as it is.
    pub fn file(&self) -> Vec<u8> {
        let mut file = vec![0; self.length];
        let (burst, camera) = (self.header.burst_number, self.header.camera);
        for (entry, (at, length)) in self.entries.iter().zip(&self.records) {
            let picture = bytes(entry.shot as usize, *length);
            let ad: [&[u8]; 2] = [&entry.to_bytes(), &[]];
            let sealed = seal_shot(&KEY, burst, entry.shot, camera, &[9; 16], ad, &picture);
            put(&mut file, *at, &sealed);
        }
        self.put_front(&mut file);
        let ad: [&[u8]; 2] = [&self.header.to_bytes(), &self.index()];
        let closing = seal_shot(&KEY, burst, 0, camera, &SITE_MARK, ad, &[]);
        put(&mut file, self.closing_at, &closing);
        file
    }

    /// The bytes with zeros for the seals, which serve where no tag is tested.
    pub fn unsealed(&self) -> Vec<u8> {
        let mut file = vec![0; self.length];
        self.put_front(&mut file);
        file
    }
}
