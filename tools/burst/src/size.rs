//! `burst size`: a burst is sized up before the trigger.

use crate::files;
use crate::library::{self, Size, MAX_PICTURE_BYTES, MAX_SHOTS, SEAL_BYTES};
use crate::messages::{Failure, LENGTH_PLANNED};
use proved_calls::icepole::icepole128;
use std::time::{Duration, Instant};

pub const PICTURE_LENGTH: u32 = 10;

/// `burst size`. Only `measure` gives a time.
pub fn size(lengths: &[u64], measure: bool) -> Result<(), Failure> {
    let size = library::size_up(lengths).map_err(|found| refused(lengths, found.number))?;
    let Size { bytes, p12, p6 } = size;
    let taken = lengths.len();
    let kept = lengths.iter().filter(|length| **length != 0).count();
    let mut text = format!(
        "taken {taken} kept {kept} dropped {}\nbytes {bytes}\nP12 calls {p12}\nP6 calls {p6}\n",
        taken - kept
    );
    if measure {
        text += &estimate_line(&size, &Measured::here());
    }
    files::print(&text)
}

/// A refusal of a list: under 10 it names the first shot that is too long.
fn refused(lengths: &[u64], number: u32) -> Failure {
    let mut shots = (1..).zip(lengths);
    let too_long = shots.find(|(_, length)| **length > MAX_PICTURE_BYTES as u64);
    match (number, too_long) {
        (PICTURE_LENGTH, Some((shot, length))) => Failure::Refused {
            number,
            about: format!("shot {shot} is to have {length}"),
            advice: LENGTH_PLANNED,
        },
        _ => {
            let count = lengths.len();
            let about = format!("{count} shots are planned, and {MAX_SHOTS} is the most");
            Failure::refused(number, about)
        }
    }
}

/// The P6 in a seal of as many bytes as the longest picture has: one for each
/// block of 128, one each for the blocks of secret number and associated data,
/// and two for the P12, which has their rounds.
const P6_A_RUN: usize = MAX_PICTURE_BYTES / 128 + 2 + 2;

/// At most so many seals are timed, and none is begun after so long.
const RUNS: usize = 32;
const LONG: Duration = Duration::from_millis(200);

/// The least time of the runs.
struct Measured {
    least: Duration,
    runs: usize,
}

impl Measured {
    fn here() -> Self {
        let message = vec![0; MAX_PICTURE_BYTES];
        let mut out = vec![0; MAX_PICTURE_BYTES + SEAL_BYTES];
        let begun = Instant::now();
        let (mut least, mut runs) = (Duration::MAX, 0);
        while runs == 0 || (runs < RUNS && begun.elapsed() < LONG) {
            let start = Instant::now();
            let number =
                icepole128::seal(&[0; 16], &[0; 16], &[0; 16], &[], &[], &message, &mut out);
            least = least.min(start.elapsed());
            assert_eq!(number, 0, "icepole.h: lengths in range are not refused");
            runs += 1;
        }
        Measured { least, runs }
    }
}

fn estimate_line(size: &Size, measured: &Measured) -> String {
    let Measured { least, runs } = measured;
    let nanoseconds = least.as_secs_f64() * 1e9 / P6_A_RUN as f64;
    let milliseconds = nanoseconds * (size.p6 + 2 * size.p12) as f64 / 1e6;
    format!(
        "estimate {milliseconds:.3} ms on this machine: {nanoseconds:.1} ns a P6, \
         the least of {runs} runs of {P6_A_RUN}\n"
    )
}
