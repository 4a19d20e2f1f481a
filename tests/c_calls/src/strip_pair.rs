//! The C calls of strips and the reference's, side by side.

use crate::lent::Lent;
use crate::strips::{bytes_of, end, start, state_in, strip, Start, STATE_BYTES};
use reference::strips::StripState;

/// What a call writes to its output, or its refusal number.
pub type Answer = Result<Vec<u8>, u32>;

/// A strip state as it is lent to the C calls, and as the reference has it.
pub struct StripPair {
    lent: Vec<u8>,
    /// None where too few bytes are lent to hold a state.
    state: Option<StripState>,
}

/// Makes a C call on a state and on an output of `out_len` bytes. The number
/// and the output are as expected, the state has these bytes at its front, and
/// no other byte of either has changed. Gives the state's bytes.
fn check_call(
    lent: &[u8],
    out_len: usize,
    call: impl FnOnce(&mut [u8], &mut [u8]) -> u32,
    expected: &Answer,
    front: &[u8],
    what: &dyn Fn() -> String,
) -> Vec<u8> {
    let (mut state, mut out) = (Lent::holding(lent), Lent::new(out_len));
    let number = call(state.slice(), out.slice());
    match expected {
        Ok(written) => {
            assert_eq!(number, 0, "{}", what());
            out.check_written(written, &|| format!("output, {}", what()));
        }
        Err(refusal) => {
            assert_eq!(number, *refusal, "{}", what());
            out.check_untouched(&|| format!("output, {}", what()));
        }
    }
    state.check_written(front, &|| format!("state, {}", what()));
    state.slice().to_vec()
}

impl StripPair {
    /// A state that anybody made: these bytes, which may be too few.
    pub fn holding(lent: &[u8]) -> Self {
        StripPair {
            lent: lent.to_vec(),
            state: state_in(lent),
        }
    }

    /// A start whose output and state have these lengths. Refused, it leaves a
    /// finished state, otherwise zero. A state that is too short stays, and is
    /// 5 where nothing else is wrong.
    pub fn start(
        given: &Start,
        out_len: usize,
        state_len: usize,
        what: &dyn Fn() -> String,
    ) -> (Self, Answer) {
        let (key, nonce, secret) = (given.key, given.nonce, given.secret);
        let (state, answer) =
            reference::strips::start(key, nonce, secret, given.ad1, given.ad2, out_len);
        let (state, expected) = if state_len < STATE_BYTES {
            (None, answer.and(Err(5)))
        } else {
            (Some(state), answer)
        };
        let front = state.as_ref().map_or(vec![], bytes_of);
        let before: Vec<u8> = (3..=255).cycle().take(state_len).collect();
        let call = |lent: &mut [u8], out: &mut [u8]| start(given, out, lent);
        let lent = check_call(&before, out_len, call, &expected, &front, what);
        (StripPair { lent, state }, expected)
    }

    /// A strip, for an output of `out_len` bytes. Where too few bytes are lent
    /// to hold a state, that comes before all else: 5.
    pub fn strip(&mut self, msg: &[u8], out_len: usize, what: &dyn Fn() -> String) -> Answer {
        let expected = match &mut self.state {
            Some(state) => state.strip(msg, out_len),
            None => Err(5),
        };
        let call = |lent: &mut [u8], out: &mut [u8]| strip(lent, msg, out);
        self.check(out_len, call, expected, what)
    }

    /// An end, for an output of `out_len` bytes; 5 as for a strip.
    pub fn end(&mut self, out_len: usize, what: &dyn Fn() -> String) -> Answer {
        let expected = match &mut self.state {
            Some(state) => state.end(out_len),
            None => Err(5),
        };
        self.check(out_len, end, expected, what)
    }

    /// A strip or an end. Where it is refused, the state stays.
    fn check(
        &mut self,
        out_len: usize,
        call: impl FnOnce(&mut [u8], &mut [u8]) -> u32,
        expected: Answer,
        what: &dyn Fn() -> String,
    ) -> Answer {
        let front = match (&expected, &self.state) {
            (Ok(_), Some(state)) => bytes_of(state),
            _ => vec![],
        };
        self.lent = check_call(&self.lent, out_len, call, &expected, &front, what);
        expected
    }

    /// The bytes that are lent to the next call.
    pub fn lent(&self) -> &[u8] {
        &self.lent
    }
}
