//! The lister (the scope paper, "Afterwards: 128a, 256a, strips, a lister").

use super::reader::{front, Front};

/// The longest file that the lister reads.
pub const LONGEST_LISTED: usize = 65_536;

/// The lines of a front that is right.
fn lines(front: &Front) -> String {
    let header = &front.header;
    let mut text = format!("burst {}\n", header.burst_number);
    text += &format!(
        "taken {} kept {} dropped {}\n",
        header.taken, header.kept, header.dropped
    );
    for entry in &front.entries {
        text += &format!(
            "shot {} at {} length {}\n",
            entry.shot, entry.offset, entry.length
        );
    }
    text
}

/// What the lister prints for a file, without a key: it tests the front only.
pub fn list(file: &[u8]) -> String {
    if file.len() > LONGEST_LISTED {
        return "front too long\n".into();
    }
    match front(file) {
        Ok(front) => lines(&front),
        Err(number) => format!("front {number}\n"),
    }
}
