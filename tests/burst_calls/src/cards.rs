//! burst_card_line, held against the reference.

use reference::burst::{card_line, CardLine};

/// What is asked of the call.
#[derive(Clone, Copy, Debug)]
pub struct Asked {
    pub card: u64,
    pub shots: u64,
    pub picture: u64,
}

pub fn asked(card: u64, shots: u64, picture: u64) -> Asked {
    Asked {
        card,
        shots,
        picture,
    }
}

/// The bytes of a full burst's file, by a sum: the third opinion. Header and
/// closing seal have 72; a record and its entry have 44 more than the picture.
pub fn length_by_sum(shots: u64, picture: u64) -> u64 {
    72 + shots * (picture + 44)
}

/// The call gives this answer, zeros where it is refused.
pub fn check_answer(asked: Asked, expected: Result<CardLine, u32>, what: &dyn Fn() -> String) {
    let given = crate::card_line(asked.card, asked.shots, asked.picture);
    assert_eq!(given, crate::told(expected), "{}, {asked:?}", what());
}

/// The call and the reference give this answer.
pub fn check_both(asked: Asked, expected: Result<CardLine, u32>, what: &dyn Fn() -> String) {
    let by_reference = card_line(asked.card, asked.shots, asked.picture);
    assert_eq!(by_reference, expected, "reference, {}, {asked:?}", what());
    check_answer(asked, expected, what);
}

/// The call gives the reference's answer, and with a file length by the sum the
/// sentence of request N2 holds. Gives the answer.
pub fn check_card(asked: Asked, what: &dyn Fn() -> String) -> Result<CardLine, u32> {
    let expected = card_line(asked.card, asked.shots, asked.picture);
    check_answer(asked, expected, what);
    if let Ok(CardLine { bursts, left }) = expected {
        let length = length_by_sum(asked.shots, asked.picture);
        let card = u128::from(bursts) * u128::from(length) + u128::from(left);
        assert_eq!(card, asked.card.into(), "sum, {}, {asked:?}", what());
        assert!(left < length, "left, {}, {asked:?}", what());
    }
    expected
}
