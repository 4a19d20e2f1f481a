//! Text from outside, names and marks, as it may be shown on a terminal.

use std::ffi::OsStr;
use std::os::unix::ffi::OsStrExt;
use std::path::Path;

/// The text with escapes in place of all that a terminal would obey or hide:
/// control characters, characters that do not print or that turn the direction
/// of writing, and bytes that are not UTF-8. A backslash and a double quote get
/// a backslash, so that no text looks like the escapes of another.
pub fn bytes(bytes: &[u8]) -> String {
    let mut text = String::new();
    for chunk in bytes.utf8_chunks() {
        for character in chunk.valid().chars() {
            push(&mut text, character);
        }
        for byte in chunk.invalid() {
            text += &format!("\\x{byte:02x}");
        }
    }
    text
}

fn push(text: &mut String, character: char) {
    if character == '\'' {
        return text.push(character);
    }
    // Behind a letter, so that an accent that belongs to one stays as it is.
    let behind = format!("x{character}");
    text.extend(behind.escape_debug().skip(1));
}

pub fn word(word: &OsStr) -> String {
    bytes(word.as_bytes())
}

pub fn path(path: &Path) -> String {
    word(path.as_os_str())
}
