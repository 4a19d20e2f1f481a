//! `burst record`: a list of shots becomes a script for the library, and the
//! buffer that the library fills becomes the file.

use crate::arguments::{Record, Shot};
use crate::library::{self, ANSWER_BYTES, MAX_PICTURE_BYTES, MAX_SHOTS};
use crate::library::{CALL_CLOSE, CALL_DROP, CALL_KEEP};
use crate::library::{ENTRY_BYTES, MIN_WRITTEN_BYTES, SEAL_BYTES};
use crate::messages::Failure;
use crate::progress::{megabytes, Progress};
use crate::secrets;

/// What a kept picture adds to a file beside its own bytes.
const KEPT_BYTES: usize = SEAL_BYTES + ENTRY_BYTES;

/// The calls after begin, as the library reads them.
struct Script {
    bytes: Vec<u8>,
    calls: usize,
    /// How long the file is when every call is accepted.
    file_bytes: usize,
}

/// The script of the shots and a close. Each shot after the 60th is refused,
/// so that no more than 61 of them are read.
fn script_of(shots: &[Shot]) -> Result<Script, Failure> {
    let mut script = Script {
        bytes: Vec::new(),
        calls: 0,
        file_bytes: MIN_WRITTEN_BYTES,
    };
    for shot in shots.iter().take(MAX_SHOTS + 1) {
        match shot {
            Shot::Drop => script.bytes.push(CALL_DROP),
            Shot::Keep { stamp, picture } => {
                // One byte more than the longest picture is enough for the
                // library to refuse it.
                let picture = picture.read_up_to(MAX_PICTURE_BYTES + 1)?;
                script.push_keep(stamp, &picture);
            }
        }
        script.calls += 1;
    }
    script.bytes.push(CALL_CLOSE);
    script.calls += 1;
    Ok(script)
}

impl Script {
    fn push_keep(&mut self, stamp: &[u8], picture: &[u8]) {
        // A script holds a stamp's length in one byte. Any length but 16 is
        // refused, so that 255 bytes of a longer stamp do.
        let stamp = &stamp[..stamp.len().min(255)];
        self.bytes.extend([CALL_KEEP, stamp.len() as u8]);
        self.bytes.extend((picture.len() as u32).to_le_bytes());
        self.bytes.extend(stamp);
        self.bytes.extend(picture);
        self.file_bytes += picture.len() + KEPT_BYTES;
    }
}

/// What a refused call was about: begin is call 0, then the shots from 1.
fn about(wanted: &Record, call: usize, number: u32) -> String {
    if call == 0 {
        return match number {
            1 => wanted.key.name(),
            15 => format!("--camera {}", wanted.camera),
            _ => format!("the site mark has {}", wanted.site_mark.len()),
        };
    }
    match wanted.shots.get(call - 1) {
        Some(Shot::Keep { stamp, picture }) if number == 3 => {
            let (length, picture) = (stamp.len(), picture.name());
            format!("the stamp of shot {call} ({picture}) has {length}")
        }
        Some(Shot::Keep { picture, .. }) => format!("shot {call} ({})", picture.name()),
        Some(Shot::Drop) => format!("shot {call}, which was to be dropped"),
        None => "the close".into(),
    }
}

/// The first answer that is not 0 refuses the burst. Otherwise the last one is
/// the close's, with the total.
fn total(wanted: &Record, answers: &[u8]) -> Result<usize, Failure> {
    let number = |bytes: &[u8]| {
        bytes
            .iter()
            .rev()
            .fold(0, |sum, byte| sum << 8 | u32::from(*byte))
    };
    let mut total = 0;
    for (call, answer) in answers.chunks(ANSWER_BYTES).enumerate() {
        let (refusal, value) = answer.split_at(ANSWER_BYTES / 2);
        let refusal = number(refusal);
        if refusal != 0 {
            return Err(Failure::refused(refusal, about(wanted, call, refusal)));
        }
        total = number(value) as usize;
    }
    Ok(total)
}

/// The file of the shots.
fn seal(wanted: &Record, key: &[u8], script: &Script) -> Result<Vec<u8>, Failure> {
    let mut buffer = vec![0; script.file_bytes];
    let mut answers = vec![0; ANSWER_BYTES * (1 + script.calls)];
    let progress = Progress::new(script.bytes.len());
    progress.say(&format!("sealing {}", megabytes(script.bytes.len())));
    let performed = library::replay(
        key,
        wanted.burst_number,
        wanted.camera,
        &wanted.site_mark,
        &script.bytes,
        &mut buffer,
        &mut answers,
    );
    assert_eq!(
        performed,
        (1 + script.calls, true),
        "burst.h: every call that has room for its answer is performed"
    );
    let total = total(wanted, &answers)?;
    buffer.truncate(total);
    Ok(buffer)
}

/// `burst record`.
pub fn record(wanted: &Record) -> Result<(), Failure> {
    wanted.out.test(wanted.force)?;
    let key = secrets::read_key(&wanted.key)?;
    let script = script_of(&wanted.shots)?;
    let file = seal(wanted, &key, &script)?;
    wanted.out.write(&file, wanted.force)?;
    let taken = wanted.shots.len();
    let kept = wanted
        .shots
        .iter()
        .filter(|shot| matches!(shot, Shot::Keep { .. }))
        .count();
    wanted.out.report(&format!(
        "burst {} camera {} taken {taken} kept {kept} dropped {} to {}, {} bytes\n",
        wanted.burst_number,
        wanted.camera,
        taken - kept,
        wanted.out.name(),
        file.len()
    ))
}
