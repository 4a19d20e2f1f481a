//! The burst file (the scope paper, "The burst file", "Recorder", "Reader",
//! "Turned down, by example"), in edition 1 and with the camera number of
//! request N1 in edition 2.
//!
//! `plain` works a list of calls out from its arguments and the buffer's
//! length alone. `recorder` does the same calls on a real buffer. `reader`
//! checks a file and gives it back, `lister` prints its front. `size_up` says
//! beforehand what recording uses (request N4), `card_line` how many bursts a card
//! holds (request N2). `plain` shares only numbers with the others: it lays out its
//! file by itself.

pub mod card_line;
pub mod layout;
pub mod lister;
pub mod plain;
pub mod reader;
pub mod recorder;
pub mod size_up;

pub use card_line::{card_line, CardLine};
pub use layout::{Edition, Entry, Header, EDITIONS, EDITION_1, EDITION_2};
pub use plain::{Call, PlainBurst};
pub use recorder::Recorder;
pub use size_up::{size_up, Size};

/// What begin, keep, drop and close answer: the refusal number (0 when
/// accepted), its mark, and the shot number of keep and drop or the total of
/// close. The last is 0 for begin and for every call turned down.
#[derive(Clone, Copy, Debug, PartialEq, Eq)]
pub struct Answer {
    pub number: u32,
    pub mark: u32,
    pub shot_or_total: u64,
}

impl Answer {
    pub fn accepted(shot_or_total: u64) -> Self {
        Answer {
            number: 0,
            mark: 0,
            shot_or_total,
        }
    }

    /// Begin, keep, drop and close never refuse with 7, so the mark is 0.
    pub fn refused(number: u32) -> Self {
        Answer {
            number,
            mark: 0,
            shot_or_total: 0,
        }
    }
}

/// A refusal of the reader. Its mark is 0 except under 7: there 0 stands for
/// the closing seal, and a shot number (never a place) for a record.
#[derive(Clone, Copy, Debug, PartialEq, Eq)]
pub struct Refusal {
    pub number: u32,
    pub mark: u32,
}

impl Refusal {
    /// A refusal with mark 0.
    pub fn unmarked(number: u32) -> Self {
        Refusal { number, mark: 0 }
    }
}
