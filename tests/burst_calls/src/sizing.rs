//! burst_size_up, held against the reference.

use std::hint::black_box;

use crate::list::shots_of;
use crate::recording::{Performed, Recording};
use crate::script::script_of;
use reference::burst::{size_up, Size};

/// Numbers before and after a lent list. A call that looks at one of them
/// refuses the list with 10.
const GUARD: [u64; 3] = [u64::MAX; 3];

/// The call gives this answer, zeros where it is refused, and only reads the
/// list.
pub fn check_answer(lengths: &[u64], expected: Result<Size, u32>, what: &dyn Fn() -> String) {
    let before = [&GUARD, lengths, &GUARD].concat();
    let mut now = before.clone();
    let lent = &mut now[GUARD.len()..GUARD.len() + lengths.len()];
    let given = crate::size_up(lent);
    let what = || {
        let (count, front) = (lengths.len(), &lengths[..lengths.len().min(62)]);
        format!("{}, {count} shots, {front:?}", what())
    };
    assert_eq!(given, crate::told(expected), "{}", what());
    assert!(*black_box(&now) == before, "the list changed, {}", what());
}

/// The call and the reference give this answer.
pub fn check_both(lengths: &[u64], expected: Result<Size, u32>, what: &dyn Fn() -> String) {
    assert_eq!(size_up(lengths), expected, "reference, {}", what());
    check_answer(lengths, expected, what);
}

/// The call gives the reference's answer. Gives it.
pub fn check_size(lengths: &[u64], what: &dyn Fn() -> String) -> Result<Size, u32> {
    let expected = size_up(lengths);
    check_answer(lengths, expected, what);
    expected
}

/// Begin, these shots and close through burst_replay, in a buffer of this
/// length.
pub fn recorded(lengths: &[u64], buffer: u64, what: &dyn Fn() -> String) -> Performed {
    let lengths: Vec<usize> = lengths.iter().map(|length| *length as usize).collect();
    let calls = shots_of(&lengths);
    let answers = 8 * (calls.len() + 1);
    let recording = Recording::new(31, script_of(&calls), buffer as usize, answers);
    recording.check(what)
}
