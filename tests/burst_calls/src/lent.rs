//! Slices and numbers that are lent to a call and looked at afterwards.

use std::fmt::Debug;
use std::hint::black_box;
use std::ops::Range;

/// Bytes before and after the lent part, which no call may write. The count is
/// odd, so that the lent part stands at an odd address.
const GUARD: usize = 61;

/// The bytes differ in length, or first at this offset.
fn difference(left: &[u8], right: &[u8]) -> Option<String> {
    if left.len() != right.len() {
        return Some(format!("{} bytes, not {}", left.len(), right.len()));
    }
    let at = (0..left.len()).find(|at| left[*at] != right[*at])?;
    let (left, right) = (left[at], right[at]);
    Some(format!("byte {at} is {left:#04x}, not {right:#04x}"))
}

/// The bytes are as expected.
pub fn check_same(bytes: &[u8], expected: &[u8], what: &dyn Fn() -> String) {
    // Comparing whole slices is quick; only a failure looks for its place.
    if bytes != expected {
        let difference = difference(bytes, expected).unwrap();
        panic!("{}: {difference}", what());
    }
}

/// A lent slice between two guards.
pub struct Lent {
    before: Vec<u8>,
    now: Vec<u8>,
}

impl Lent {
    /// The lent part holds these bytes.
    pub fn holding(bytes: &[u8]) -> Self {
        let guard = [0xC3; GUARD];
        let before = [&guard, bytes, &guard].concat();
        Lent {
            now: before.clone(),
            before,
        }
    }

    /// The lent part holds a pattern that is nowhere zero.
    pub fn of(length: usize) -> Self {
        let pattern: Vec<u8> = (1..=251).cycle().take(length).collect();
        Lent::holding(&pattern)
    }

    /// The part that is lent.
    pub fn slice(&mut self) -> &mut [u8] {
        let end = self.now.len() - GUARD;
        &mut self.now[GUARD..end]
    }

    /// The front holds what was to be written; every later byte, and every
    /// guard byte, is as it was.
    pub fn check_written(&self, written: &[u8], what: &dyn Fn() -> String) {
        let end = GUARD + written.len();
        let part = |range: Range<usize>, expected: &[u8], name: &str| {
            check_same(&self.now[range], expected, &|| {
                format!("{}, {name}", what())
            });
        };
        part(GUARD..end, written, "written bytes");
        let before = &self.before;
        part(0..GUARD, &before[..GUARD], "bytes before the slice");
        let whole = before.len();
        part(end..whole, &before[end..], "bytes after the written ones");
    }

    /// No byte has changed.
    pub fn check_untouched(&self, what: &dyn Fn() -> String) {
        self.check_written(&[], &|| format!("{}, nothing is to be written", what()));
    }
}

/// A number that a call writes, of 32 or of 64 bits.
pub trait Number: Copy + Debug + PartialEq {
    /// What stands in a lent number before the call; no call gives it.
    const UNWRITTEN: Self;
}

impl Number for u32 {
    const UNWRITTEN: u32 = 0xA5A5_A5A5;
}

impl Number for u64 {
    const UNWRITTEN: u64 = 0xA5A5_A5A5_A5A5_A5A5;
}

/// A number lent by pointer, between two others that no call may write.
pub struct LentNumber<N> {
    numbers: [N; 3],
}

impl<N: Number> Default for LentNumber<N> {
    fn default() -> Self {
        LentNumber {
            numbers: [N::UNWRITTEN; 3],
        }
    }
}

impl<N: Number> LentNumber<N> {
    pub fn lent(&mut self) -> &mut N {
        &mut self.numbers[1]
    }

    /// The number after the call. If it was not written, it is one that no
    /// call gives.
    pub fn after(&self) -> N {
        // All three are read anew: the compiler may not take it that a call
        // leaves what stands beside the lent number.
        let [before, number, after] = *black_box(&self.numbers);
        assert_eq!([before, after], [N::UNWRITTEN; 2], "beside a lent number");
        number
    }
}
