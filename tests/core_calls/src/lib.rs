//! The C calls of include/core.h, held against the reference, and what their
//! tests share. Here is the judging of round logs; `rounds` has the other calls.

pub mod logs;
pub mod random_log;
pub mod random_rounds;
pub mod rounds;
pub mod states;

use burst_calls::lent::{Lent, LentNumber};
use reference::round_log::{self, Verdict, REFUSAL};

/// Number, whether the log agrees, and the round, of judging a log.
pub fn judge(log: &[u8]) -> (u32, u32, u32) {
    let (mut agrees, mut round) = (LentNumber::default(), LentNumber::default());
    let number = proved_calls::hardware_core::check_log(log, agrees.lent(), round.lent());
    (number, agrees.after(), round.after())
}

/// What the call gives for a verdict.
pub fn numbers(verdict: Verdict) -> (u32, u32, u32) {
    match verdict {
        Verdict::Agrees(rounds) => (0, 1, rounds as u32),
        Verdict::Differs(round) => (0, 0, round as u32),
        Verdict::Refused => (REFUSAL, 0, 0),
    }
}

/// The call gives this verdict, and only reads the log.
pub fn check_verdict(log: &[u8], expected: Verdict, what: &dyn Fn() -> String) {
    let what = || format!("log of {} bytes, {}", log.len(), what());
    let mut lent = Lent::holding(log);
    assert_eq!(judge(lent.slice()), numbers(expected), "{}", what());
    lent.check_untouched(&what);
}

/// The call and the reference give this verdict.
pub fn check_both(log: &[u8], expected: Verdict, what: &dyn Fn() -> String) {
    assert_eq!(round_log::check_log(log), expected, "reference, {}", what());
    check_verdict(log, expected, what);
}

/// The call gives the reference's verdict. Gives it.
pub fn check_log(log: &[u8], what: &dyn Fn() -> String) -> Verdict {
    let verdict = round_log::check_log(log);
    check_verdict(log, verdict, what);
    verdict
}
