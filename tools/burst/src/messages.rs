//! What can go wrong, in words: the refusals of the scope document and the
//! failures of the tool itself, each with its exit status.

use crate::show;
use std::io::{self, ErrorKind, Write};
use std::path::{Path, PathBuf};
use std::sync::atomic::{AtomicBool, Ordering};

pub const USAGE: u8 = 64;
pub const TOO_LONG: u8 = 65;
pub const OUTPUT_THERE: u8 = 73;
pub const FILE: u8 = 74;

/// Why a command did not do what it was asked.
pub enum Failure {
    /// The command line is wrong. The command is empty where none was given.
    Usage {
        command: &'static str,
        problem: String,
    },
    /// A call of the library refused, with its number. `about` says of what.
    Refused {
        number: u32,
        about: String,
        advice: &'static str,
    },
    /// The file is longer than the lister reads.
    TooLong,
    /// An output is there already, and --force was not given.
    Exists(PathBuf),
    /// Something that is not a plain file has the name of an output.
    NotAFile(PathBuf),
    /// Something that is not a folder has the name of the folder of --all.
    NotAFolder(PathBuf),
    /// A folder for all pictures has files, and --force was not given. One of
    /// them may be what a run left that was killed or could not remove it.
    NotEmpty {
        folder: PathBuf,
        left: Option<PathBuf>,
    },
    /// Somebody else has made the folder of --all, which was not there.
    Meanwhile(PathBuf),
    /// A file was to go to a terminal.
    Terminal,
    /// A file could not be read, written or named. The name is as it is shown.
    File {
        doing: &'static str,
        name: String,
        error: io::Error,
    },
    /// Text could not be written to standard output. Output files stand by then.
    Print(io::Error),
    /// A file could not be written to standard output whole.
    Cut(io::Error),
    /// A signal has come that ends the program, and does so before this is told.
    Interrupted,
}

impl Failure {
    /// A refusal with the advice that goes with its number.
    pub fn refused(number: u32, about: String) -> Self {
        let advice = advice(number);
        Failure::Refused {
            number,
            about,
            advice,
        }
    }

    pub fn file(doing: &'static str, path: &Path, error: io::Error) -> Self {
        Failure::named(doing, show::path(path), error)
    }

    pub fn named(doing: &'static str, name: String, error: io::Error) -> Self {
        Failure::File { doing, name, error }
    }

    pub fn status(&self) -> u8 {
        match self {
            Failure::Usage { .. } => USAGE,
            // Every number of the library is far below 256.
            Failure::Refused { number, .. } => u8::try_from(*number).unwrap_or(u8::MAX),
            Failure::TooLong => TOO_LONG,
            Failure::Exists(_)
            | Failure::NotAFile(_)
            | Failure::NotAFolder(_)
            | Failure::NotEmpty { .. }
            | Failure::Meanwhile(_)
            | Failure::Terminal => OUTPUT_THERE,
            Failure::File { .. } | Failure::Print(_) | Failure::Cut(_) | Failure::Interrupted => {
                FILE
            }
        }
    }

    /// What is wrong.
    pub fn problem(&self) -> String {
        match self {
            Failure::Usage { problem, .. } => problem.clone(),
            Failure::Refused { number, about, .. } => {
                format!("refused with {number}: {}: {about}", words(*number))
            }
            Failure::TooLong => "the file has more than 65,536 bytes; list reads no more".into(),
            Failure::Exists(path) => format!("{} exists already", show::path(path)),
            Failure::NotAFile(path) => {
                format!("{} is there and is not a plain file", show::path(path))
            }
            Failure::NotAFolder(path) => {
                format!("{} is there and is not a folder", show::path(path))
            }
            Failure::NotEmpty { folder, .. } => {
                format!("the folder {} is not empty", show::path(folder))
            }
            Failure::Meanwhile(folder) => {
                format!("somebody else has made {} meanwhile", show::path(folder))
            }
            Failure::Terminal => "standard output is a terminal; it gets no file".into(),
            Failure::File { doing, name, error } => format!("cannot {doing} {name}: {error}"),
            Failure::Print(error) | Failure::Cut(error) => {
                format!("cannot write to standard output: {error}")
            }
            Failure::Interrupted => "interrupted".into(),
        }
    }

    /// What to do about it.
    fn remedy(&self) -> String {
        match self {
            Failure::Usage { command: "", .. } => "`burst --help` shows the commands.".into(),
            Failure::Usage { command, .. } => {
                format!("`burst {command} --help` shows how it is called.")
            }
            Failure::Refused { advice, .. } => (*advice).into(),
            Failure::TooLong => {
                "`burst explain FILE` shows a file of any length, also without a key.".into()
            }
            Failure::Exists(_) => "Give another name, or --force to replace the file.".into(),
            Failure::NotAFile(_) => "Give another name; --force replaces plain files only.".into(),
            Failure::NotAFolder(_) => "Give another name for the folder of --all.".into(),
            Failure::NotEmpty { left: None, .. } => {
                "Name a new or an empty folder, so that pictures of two bursts are not mixed; \
                 --force writes into this one, and leaves its other files there."
                    .into()
            }
            Failure::NotEmpty {
                left: Some(left), ..
            } => format!(
                "Unless another fetch runs now, one that could not clean up or was killed has left \
                 {}, which may hold pictures: remove it. Files replaced-.. in it stood in the \
                 folder before.",
                show::path(left)
            ),
            Failure::Meanwhile(_) => {
                "Give the command again, and it writes into that folder.".into()
            }
            Failure::Terminal => "Send it to a file or a pipe, or name a file.".into(),
            Failure::File { .. } => {
                let outputs = match LEFT.load(Ordering::Relaxed) {
                    true => "What is left is named above.",
                    false => "No output file was written.",
                };
                format!("Look at the name, the rights and the room there. {outputs}")
            }
            Failure::Print(_) => "Output files, where they were asked for, are written.".into(),
            Failure::Cut(_) => "What went there is not whole: do not use it.".into(),
            Failure::Interrupted => "Give the command again.".into(),
        }
    }
}

/// A refusal number in words, as include/burst.h has them.
fn words(number: u32) -> &'static str {
    match number {
        1 => "the key is not 16 bytes",
        3 => "a stamp or site mark is not 16 bytes",
        5 => "an output is too short",
        7 => "a tag differs",
        8 => "the burst is closed, or its begin was refused",
        9 => "the burst is full",
        10 => "a picture has 1 to 1,048,576 bytes",
        11 => "the file buffer is too short",
        12 => "a front rule is broken",
        13 => "there is no such place",
        15 => "the camera number is 0",
        16 => "a full burst has 1 to 60 shots",
        _ => "a number that burst.h does not name",
    }
}

/// Under 7, where the tag of a shot's record differs.
pub const RECORD_CHANGED: &str =
    "The record of that shot was changed or damaged. It is not the key: the closing seal agrees \
     under it. Copy the file from the card again; if it is refused still, do not use its pictures.";

/// Under 12, where `burst explain` has shown the header and the broken rules.
pub const FRONT_EXPLAINED: &str =
    "This is no whole burst file: it may be cut, or another file. Copy it from the card again; \
     docs/FORMAT.md has the rules that it breaks.";

/// Under 10, where the burst is planned and has no pictures yet.
pub const LENGTH_PLANNED: &str =
    "Give a length of at most 1,048,576, or - for a shot that is dropped.";

/// Under 10, where every burst on a card is to have pictures of one length.
pub const LENGTH_OF_EACH: &str = "Give as --picture the bytes of one picture, 1 to 1048576.";

/// What to do about a refusal, where no more is known than its number.
fn advice(number: u32) -> &'static str {
    match number {
        1 => "Give a key file of 16 raw bytes, or of 32 hex digits.",
        3 => "Give text of 1 to 16 bytes, or hex: and 32 hex digits.",
        7 => {
            "The file was changed or damaged, or sealed under another key. Try the camera's own key, then \
             copy the file from the card again; if it is refused still, do not use its pictures."
        }
        9 => "Put at most 60 shots into a burst, and the others into a burst of another number.",
        10 => "Leave the picture out with --drop, or give one of that size.",
        12 => {
            "This is no whole burst file: it may be cut, or another file. Copy it from the card \
             again; `burst explain FILE` shows what its header says."
        }
        13 => "Places count kept pictures from 0; they are not shot numbers. `burst explain FILE` shows both.",
        15 => {
            "Give the camera's own number, 1 to 4294967295. Cameras that share a key have different \
             numbers."
        }
        16 => "Give as --shots the shots of one burst, 1 to 60.",
        _ => "This is a fault of the tool. Please report it, with the command that you gave.",
    }
}

/// Something of the outputs is left, and `tell_left` has told it.
static LEFT: AtomicBool = AtomicBool::new(false);

/// Writes to standard error what could not be removed or put back, if anything.
/// This is no failure of the command: either all is placed, or another failure
/// follows, or a signal ends the program.
pub fn tell_left(left: &[Failure]) {
    if left.is_empty() {
        return;
    }
    LEFT.store(true, Ordering::Relaxed);
    let line = |failure: &Failure| format!("burst: {}\n", failure.problem());
    let lines: String = left.iter().map(line).collect();
    let advice = "What is left may hold pictures: remove it, but look for files replaced-.. in it \
                  first, which stood in the folder before.";
    let _ = io::stderr().write_all(format!("{lines}  {advice}\n").as_bytes());
}

/// Writes the failure to standard error. Where that cannot be written either,
/// the exit status is all that is left to say it.
pub fn tell(failure: &Failure) {
    // Whoever reads standard output has seen enough and closed it.
    if let Failure::Print(error) | Failure::Cut(error) = failure {
        if error.kind() == ErrorKind::BrokenPipe {
            return;
        }
    }
    let text = format!("burst: {}\n  {}\n", failure.problem(), failure.remedy());
    let _ = io::stderr().write_all(text.as_bytes());
}
