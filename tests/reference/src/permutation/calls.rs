//! How often P12 and P6 are called. Both versions of the permutation count here,
//! each call once, when it starts.

use std::cell::Cell;

#[derive(Clone, Copy, Debug, PartialEq, Eq)]
pub struct Calls {
    pub p12: u64,
    pub p6: u64,
}

thread_local! {
    /// The calls of this thread so far. What other threads call counts there.
    static SO_FAR: Cell<Calls> = const { Cell::new(Calls { p12: 0, p6: 0 }) };
}

/// One more call of P12.
pub(super) fn count_p12() {
    let mut calls = SO_FAR.get();
    calls.p12 += 1;
    SO_FAR.set(calls);
}

/// One more call of P6.
pub(super) fn count_p6() {
    let mut calls = SO_FAR.get();
    calls.p6 += 1;
    SO_FAR.set(calls);
}

/// What some work gives, and the calls that it makes.
pub fn counted<T>(work: impl FnOnce() -> T) -> (T, Calls) {
    let before = SO_FAR.get();
    let given = work();
    let after = SO_FAR.get();
    let calls = Calls {
        p12: after.p12 - before.p12,
        p6: after.p6 - before.p6,
    };
    (given, calls)
}
