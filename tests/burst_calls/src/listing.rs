//! burst_list, held against the reference's lister.

use crate::lent::Lent;
use reference::burst::lister::list;

/// Room for every text.
pub use proved_calls::burst::LIST_BYTES;

/// What the lister says of a front that breaks a rule, and of a file that is
/// longer than any it lists.
pub const BROKEN: &str = "front 12\n";
pub const TOO_LONG: &str = "front too long\n";

/// burst_list gives this text; later bytes stay. It is refused with 5 where
/// the text does not fit, and then nothing is written.
pub fn check_text(file: &[u8], text_len: usize, expected: &str, what: &dyn Fn() -> String) {
    let mut text = Lent::of(text_len);
    let given = crate::list_front(file, text.slice());
    let length = file.len();
    let what = || format!("list, file {length}, text {text_len}, {}", what());
    if text_len < expected.len() {
        assert_eq!(given, (5, 0), "{}", what());
        return text.check_untouched(&what);
    }
    assert_eq!(given, (0, expected.len() as u32), "{}", what());
    text.check_written(expected.as_bytes(), &what);
}

/// The text into outputs of every length of note: none, one byte less than the
/// text, exactly as much, one more, and room for every text.
pub fn check_rooms(file: &[u8], expected: &str, what: &dyn Fn() -> String) {
    let length = expected.len();
    for text_len in [0, 1, length - 1, length, length + 1, LIST_BYTES] {
        check_text(file, text_len, expected, what);
    }
}

/// burst_list is as the reference's list. Gives 5 where it is refused, 12 where
/// the text says that a front rule is broken, else 0.
pub fn check_list(file: &[u8], text_len: usize, what: &dyn Fn() -> String) -> u32 {
    let expected = list(file);
    check_text(file, text_len, &expected, what);
    match &expected[..] {
        text if text_len < text.len() => 5,
        BROKEN => 12,
        _ => 0,
    }
}
