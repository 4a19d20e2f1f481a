//! Buffers that are lent to a call and looked at afterwards, byte for byte.

/// Bytes before and after the lent part, which no call may write.
const GUARD: usize = 64;

/// A lent buffer between two guards. Every byte is filled with a pattern that
/// is nowhere zero.
#[derive(PartialEq)]
pub struct Lent {
    length: usize,
    before: Vec<u8>,
    now: Vec<u8>,
}

impl Lent {
    pub fn new(length: usize) -> Self {
        let whole = GUARD + length + GUARD;
        let before: Vec<u8> = (1..=251).cycle().take(whole).collect();
        Lent {
            length,
            now: before.clone(),
            before,
        }
    }

    /// The lent part holds these bytes.
    pub fn holding(bytes: &[u8]) -> Self {
        let mut lent = Lent::new(bytes.len());
        lent.slice().copy_from_slice(bytes);
        lent.before.clone_from(&lent.now);
        lent
    }

    /// The part that is lent.
    pub fn slice(&mut self) -> &mut [u8] {
        &mut self.now[GUARD..GUARD + self.length]
    }

    /// The first `length` bytes of the part that is lent, as a shorter buffer.
    pub fn first(&mut self, length: usize) -> &mut [u8] {
        &mut self.slice()[..length]
    }

    /// The front holds what was to be written; every later byte, and every
    /// guard byte, is as it was.
    pub fn check_written(&self, written: &[u8], what: &dyn Fn() -> String) {
        let end = GUARD + written.len();
        assert!(
            self.now[GUARD..end] == *written,
            "written bytes differ, {}",
            what()
        );
        assert!(
            self.now[..GUARD] == self.before[..GUARD],
            "bytes before the buffer changed, {}",
            what()
        );
        assert!(
            self.now[end..] == self.before[end..],
            "later bytes changed, {}",
            what()
        );
    }

    /// No byte has changed.
    pub fn check_untouched(&self, what: &dyn Fn() -> String) {
        assert!(self.now == self.before, "a refused call wrote, {}", what());
    }
}
