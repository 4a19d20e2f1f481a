//! The commands that read a burst file: list, check and fetch.

use crate::arguments::{Fetch, PlaceTyped, Wanted};
use crate::files::{self, Burst, Input, Output};
use crate::layout::Header;
use crate::library::{self, Checked, Fetched, Refused, MAX_PICTURE_BYTES};
use crate::messages::{Failure, RECORD_CHANGED};
use crate::outputs::Folder;
use crate::progress::{megabytes, Progress};
use crate::secrets::{self, show_mark};
use crate::show;
use std::path::Path;

const KEY_LENGTH: u32 = 1;
const TAG_DIFFERS: u32 = 7;
const FRONT_BROKEN: u32 = 12;
const NO_SUCH_PLACE: u32 = 13;

/// A refusal of a file: under 7 it names the part whose tag differs.
fn refused(file: &str, refused: Refused) -> Failure {
    let Refused { number, mark } = refused;
    match (number, mark) {
        (TAG_DIFFERS, 0) => Failure::refused(number, format!("that of the closing seal of {file}")),
        (TAG_DIFFERS, shot) => Failure::Refused {
            number,
            about: format!("that of the record of shot {shot} of {file}"),
            advice: RECORD_CHANGED,
        },
        _ => Failure::refused(number, file.to_string()),
    }
}

/// `burst list`: what the lister prints, and a refusal where it prints one. The
/// camera number is no part of the lister's lines, and so goes to standard error.
pub fn list(file: &Input) -> Result<(), Failure> {
    let Burst { name, bytes } = files::read_burst(file)?;
    let text = library::list(&bytes).map_err(|found| refused(&name, found))?;
    files::print(&String::from_utf8_lossy(&text))?;
    match text.as_slice() {
        b"front too long\n" => Err(Failure::TooLong),
        b"front 12\n" => Err(Failure::refused(FRONT_BROKEN, name)),
        _ => {
            let camera = Header::of(&bytes).and_then(|header| header.camera);
            if let Some(camera) = camera {
                files::note(&format!("camera {camera}\n"));
            }
            Ok(())
        }
    }
}

/// A burst file and its key, after check has accepted the file.
struct Accepted {
    key: Vec<u8>,
    burst: Burst,
    checked: Checked,
}

fn accept(key_file: &Input, file: &Input) -> Result<Accepted, Failure> {
    let key = secrets::read_key(key_file)?;
    let burst = files::read_burst(file)?;
    let length = burst.bytes.len();
    let progress = Progress::new(length);
    progress.say(&format!("checking {}", megabytes(length)));
    let checked = library::check(&key, &burst.bytes).map_err(|found| match found.number {
        KEY_LENGTH => refused(&key_file.name(), found),
        _ => refused(&burst.name, found),
    })?;
    Ok(Accepted {
        key,
        burst,
        checked,
    })
}

/// `burst check`.
pub fn check(key: &Input, file: &Input) -> Result<(), Failure> {
    let checked = accept(key, file)?.checked;
    let Checked {
        burst_number,
        taken,
        kept,
        dropped,
        ..
    } = checked;
    let mark = show_mark(&checked.site_mark);
    let camera = match checked.camera {
        0 => "none: the file is of edition 1".into(),
        number => number.to_string(),
    };
    files::print(&format!(
        "burst {burst_number}\nsite mark {mark}\ntaken {taken} kept {kept} dropped {dropped}\n\
         camera {camera}\n"
    ))
}

/// `burst fetch`. Nothing is written before check has accepted the file.
pub fn fetch(wanted: &Fetch) -> Result<(), Failure> {
    let accepted = accept(&wanted.key, &wanted.file)?;
    match &wanted.pictures {
        Wanted::One { place, out } => fetch_one(&accepted, place, out, wanted.force),
        Wanted::All { folder } => {
            let text = fetch_all(&accepted, folder, wanted.force)?;
            files::print(&text)
        }
    }
}

impl Accepted {
    /// Fetches the picture of a place into `room`. A refusal names the place as
    /// it was typed.
    fn fetch(&self, place: usize, typed: &str, room: &mut [u8]) -> Result<Fetched, Failure> {
        let fetched = library::fetch(&self.key, &self.burst.bytes, place, room);
        fetched.map_err(|found| match found.number {
            NO_SUCH_PLACE => self.no_such_place(typed),
            _ => refused(&self.burst.name, found),
        })
    }

    fn no_such_place(&self, place: &str) -> Failure {
        let kept = self.checked.kept;
        let about = format!("{place}, in a burst with {kept} kept");
        Failure::refused(NO_SUCH_PLACE, about)
    }
}

/// A picture and where it went.
fn fetched_line(place: usize, fetched: &Fetched, target: &str) -> String {
    let Fetched { shot, length, .. } = fetched;
    let stamp = show_mark(&fetched.stamp);
    format!("shot {shot} place {place} length {length} stamp {stamp} to {target}\n")
}

fn fetch_one(
    accepted: &Accepted,
    place: &PlaceTyped,
    out: &Output,
    force: bool,
) -> Result<(), Failure> {
    let number = place.number;
    let mut room = vec![0; MAX_PICTURE_BYTES];
    let progress = Progress::new(accepted.burst.bytes.len());
    progress.say(&format!("fetching place {number}"));
    let fetched = accepted.fetch(number, &place.typed, &mut room)?;
    drop(progress);
    out.write(&room[..fetched.length], force)?;
    out.report(&fetched_line(number, &fetched, &out.name()))
}

/// The name of a picture's file: three digits, so that names sort as shots.
fn picture_name(shot: u16) -> String {
    format!("shot-{shot:03}")
}

fn fetch_all(accepted: &Accepted, folder: &Path, force: bool) -> Result<String, Failure> {
    let kept = accepted.checked.kept;
    let mut room = vec![0; MAX_PICTURE_BYTES];
    let mut text = String::new();
    let mut shot_before = 0;
    let mut outputs = Folder::new(folder, force)?;
    // Every fetch checks the whole file again.
    let progress = Progress::new(accepted.burst.bytes.len() * usize::from(kept));
    for place in 0..usize::from(kept) {
        progress.say(&format!("fetching picture {} of {kept}", place + 1));
        let fetched = accepted.fetch(place, &place.to_string(), &mut room)?;
        let name = picture_name(fetched.shot);
        outputs.write(&name, &room[..fetched.length])?;
        text += &dropped_lines(shot_before + 1, fetched.shot);
        text += &fetched_line(place, &fetched, &show::path(&outputs.target(&name)));
        shot_before = fetched.shot;
    }
    drop(progress);
    outputs.place()?;
    text += &dropped_lines(shot_before + 1, accepted.checked.taken + 1);
    Ok(text)
}

/// The dropped shots from one shot number up to, not with, another.
fn dropped_lines(from: u16, to: u16) -> String {
    (from..to)
        .map(|shot| format!("shot {shot} dropped\n"))
        .collect()
}
