//! Lists of calls on one message: a start, then strips and ends in any order,
//! refused ones among them, against the reference and the plain message.

use crate::case::Case;
use crate::order::first_to_hold;
use crate::strip_pair::{Answer, StripPair};
use crate::strips::STATE_BYTES;
use reference::sealing::{MAXIMUM, TAG_BYTES};

/// A strip or an end, with the length of the output that is lent to it.
pub enum StripCall {
    Strip { msg: Vec<u8>, out_len: usize },
    End { out_len: usize },
}

impl StripCall {
    pub fn name(&self) -> &'static str {
        match self {
            StripCall::Strip { .. } => "strip",
            StripCall::End { .. } => "end",
        }
    }

    /// The C call and the reference's, which agree.
    pub fn perform(&self, pair: &mut StripPair, what: &dyn Fn() -> String) -> Answer {
        match self {
            StripCall::Strip { msg, out_len } => pair.strip(msg, *out_len, what),
            StripCall::End { out_len } => pair.end(*out_len, what),
        }
    }
}

/// The plain message: the strips accepted so far, joined, whether it is
/// finished, and whether the lent slice has room for a state. It is worked out
/// from the calls' arguments alone.
struct PlainMessage {
    message: Vec<u8>,
    finished: bool,
    has_room: bool,
}

impl PlainMessage {
    /// Takes the call in, or refuses it and stays. Gives the number.
    fn take(&mut self, call: &StripCall) -> u32 {
        let number = match call {
            StripCall::Strip { msg, out_len } => first_to_hold(&[
                (5, !self.has_room),
                (14, self.finished),
                (4, self.message.len() + msg.len() > MAXIMUM),
                (5, *out_len < msg.len()),
            ]),
            StripCall::End { out_len } => first_to_hold(&[
                (5, !self.has_room),
                (14, self.finished),
                (5, *out_len < TAG_BYTES),
            ]),
        };
        match call {
            StripCall::Strip { msg, .. } if number == 0 => self.message.extend(msg),
            StripCall::End { .. } if number == 0 => self.finished = true,
            _ => {}
        }
        number
    }
}

/// A start, with the lengths of the output and of the state that are lent to
/// it, and the calls after it.
pub struct StripList {
    /// Its message is empty; the calls have their own.
    pub case: Case,
    pub out_len: usize,
    pub state_len: usize,
    pub calls: Vec<StripCall>,
}

impl StripList {
    /// Makes all calls. Numbers are those of the plain message, and what is
    /// written, joined, is its sealed message as far as it came; nothing after
    /// a start that was refused. Gives the calls and their numbers.
    pub fn check(&self, what: &dyn Fn() -> String) -> Vec<(&'static str, u32)> {
        let given = self.case.start();
        let (mut pair, answer) = StripPair::start(&given, self.out_len, self.state_len, what);
        let mut plain = PlainMessage {
            message: vec![],
            finished: answer.is_err(),
            has_room: self.state_len >= STATE_BYTES,
        };
        let mut told = vec![("start", answer.clone().err().unwrap_or(0))];
        let mut written = answer.clone().unwrap_or_default();
        for call in &self.calls {
            let answer = call.perform(&mut pair, what);
            let number = answer.clone().err().unwrap_or(0);
            assert_eq!(number, plain.take(call), "plain message, {}", what());
            written.extend(answer.unwrap_or_default());
            told.push((call.name(), number));
        }
        match answer {
            Ok(_) => self.check_written(&plain, &written, what),
            Err(_) => assert!(written.is_empty(), "after a refused start, {}", what()),
        }
        told
    }

    /// The whole sealed message where it is finished, else its front.
    fn check_written(&self, plain: &PlainMessage, written: &[u8], what: &dyn Fn() -> String) {
        let mut whole = self.case.clone();
        whole.msg.clone_from(&plain.message);
        let sealed = whole.reference_seal(usize::MAX).unwrap();
        whole.check_seals_as(&sealed, 0);
        if plain.finished {
            assert!(written == sealed, "whole sealing differs, {}", what());
            whole.check_opens(written, 0, 0);
        } else {
            let front = &sealed[..sealed.len() - TAG_BYTES];
            assert!(written == front, "the front differs, {}", what());
        }
    }
}

/// The case's message in strips of these lengths, and one more of the rest
/// where there is any; then the end. Every output is longer by `spare`. What
/// is written, joined, is what whole sealing writes, and it opens.
pub fn check_cut(case: &Case, lengths: &[usize], spare: usize) {
    let what = || format!("{} in strips of {lengths:?}", case.describe());
    let lent = case.clone();
    let (mut pair, answer) = StripPair::start(&lent.start(), 16 + spare, 169 + spare, &what);
    let mut sealed = answer.unwrap();
    let mut rest = &lent.msg[..];
    for length in lengths {
        let (msg, later) = rest.split_at(*length);
        sealed.extend(pair.strip(msg, length + spare, &what).unwrap());
        rest = later;
    }
    if !rest.is_empty() {
        sealed.extend(pair.strip(rest, rest.len() + spare, &what).unwrap());
    }
    sealed.extend(pair.end(16 + spare, &what).unwrap());
    assert!(lent == *case, "an input changed, {}", what());

    let whole = case.reference_seal(usize::MAX);
    assert!(whole == Ok(sealed.clone()), "reference, {}", what());
    case.check_seals_as(&sealed, spare);
    case.check_opens(&sealed, spare, spare);
}
