//! Keys, stamps and site marks, as they are typed and shown.

use crate::files::Input;
use crate::library::{KEY_BYTES, STAMP_BYTES};
use crate::messages::Failure;
use crate::show;

/// A stamp or a site mark.
const MARK_BYTES: usize = STAMP_BYTES;

/// A key file is read no further than this: one byte more than 32 hex digits
/// with a line end of two bytes.
const KEY_FILE_LIMIT: usize = 2 * KEY_BYTES + 3;

/// In front of a stamp or site mark that is given as hex digits.
const HEX: &str = "hex:";

/// The key of a file: 16 raw bytes, or 32 hex digits with or without a line
/// end. What is neither is given on as it is, for the library to refuse it.
pub fn read_key(file: &Input) -> Result<Vec<u8>, Failure> {
    let bytes = file.read_up_to(KEY_FILE_LIMIT)?;
    let line = bytes.strip_suffix(b"\n").unwrap_or(&bytes);
    let line = line.strip_suffix(b"\r").unwrap_or(line);
    if line.len() != 2 * KEY_BYTES {
        return Ok(bytes);
    }
    Ok(from_hex(line).unwrap_or(bytes))
}

/// The bytes that pairs of hex digits give.
fn from_hex(digits: &[u8]) -> Option<Vec<u8>> {
    let value = |digit: u8| char::from(digit).to_digit(16);
    let byte = |pair: &[u8]| match pair {
        [high, low] => Some((value(*high)? * 16 + value(*low)?) as u8),
        _ => None,
    };
    digits.chunks(2).map(byte).collect()
}

/// A stamp or site mark as it is typed: `hex:` and hex digits, else text. Text
/// of 1 to 15 bytes is filled up with zero bytes. What then is not 16 bytes
/// long, empty text too, is left as it is, for the library to refuse it.
pub fn parse_mark(typed: &str) -> Result<Vec<u8>, String> {
    if let Some(digits) = typed.strip_prefix(HEX) {
        return from_hex(digits.as_bytes()).ok_or_else(|| {
            format!(
                "{HEX} wants pairs of hex digits after it, not `{}`",
                show::bytes(digits.as_bytes())
            )
        });
    }
    let mut bytes = typed.as_bytes().to_vec();
    if (1..MARK_BYTES).contains(&bytes.len()) {
        bytes.resize(MARK_BYTES, 0);
    }
    Ok(bytes)
}

/// A stamp or site mark as it is shown: as text, where it is text, and in hex.
pub fn show_mark(mark: &[u8; MARK_BYTES]) -> String {
    let digits: String = mark.iter().map(|byte| format!("{byte:02X}")).collect();
    let length = mark
        .iter()
        .rposition(|byte| *byte != 0)
        .map_or(0, |at| at + 1);
    match std::str::from_utf8(&mark[..length]) {
        Ok(text) if length > 0 && !text.contains(char::is_control) => {
            format!("\"{}\" {HEX}{digits}", show::bytes(text.as_bytes()))
        }
        _ => format!("{HEX}{digits}"),
    }
}
