//! The C calls that run rounds on the state at the front of a slice, held
//! against the reference.

use burst_calls::lent::Lent;
use proved_calls::hardware_core;
use reference::permutation::{words, State};
use reference::round_log::{state_bytes, state_of};
use reference::rounds_back::{self, run_in_place, Rounds};

/// A C call, and the reference's rounds.
pub struct RoundsCall {
    pub name: &'static str,
    pub call: fn(&mut [u8], u32) -> u32,
    rounds: Rounds,
}

pub const BACK: RoundsCall = RoundsCall {
    name: "rounds_back",
    call: hardware_core::rounds_back,
    rounds: rounds_back::words::inverse_rounds,
};

pub const FORWARD: RoundsCall = RoundsCall {
    name: "rounds_forward",
    call: hardware_core::rounds_forward,
    rounds: words::rounds,
};

pub const CALLS: [RoundsCall; 2] = [BACK, FORWARD];

impl RoundsCall {
    /// The reference's number, and the bytes of the slice after the call.
    fn expected(&self, slice: &[u8], count: u32) -> (u32, Vec<u8>) {
        let mut after = slice.to_vec();
        (run_in_place(self.rounds, &mut after, count), after)
    }

    /// The call gives the reference's number and bytes, and writes nothing
    /// beside the slice. Gives the number.
    pub fn check(&self, slice: &[u8], count: u32, what: &dyn Fn() -> String) -> u32 {
        let (name, length) = (self.name, slice.len());
        let what = || format!("{name}, {count} rounds, {length} bytes, {}", what());
        let (number, after) = self.expected(slice, count);
        let mut lent = Lent::holding(slice);
        assert_eq!((self.call)(lent.slice(), count), number, "{}", what());
        lent.check_written(&after, &what);
        number
    }

    /// The call and the reference give this number and leave these bytes.
    pub fn check_both(&self, slice: &[u8], count: u32, number: u32, after: &[u8]) {
        let what = || format!("number {number}");
        let expected = (number, after.to_vec());
        assert_eq!(self.expected(slice, count), expected, "{}", what());
        self.check(slice, count, &what);
    }

    /// The state that the call makes of this one, whatever the reference says.
    pub fn run(&self, state: State, count: u32) -> State {
        let mut bytes = state_bytes(&state);
        let number = (self.call)(&mut bytes, count);
        assert_eq!(number, 0, "{}, {count} rounds", self.name);
        state_of(&bytes)
    }
}
