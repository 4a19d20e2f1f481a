//! Inputs and outputs as the command line names them. A dash alone is standard
//! input or standard output.

use crate::library::MAX_FILE_BYTES;
use crate::messages::Failure;
use crate::{outputs, show};
use std::ffi::OsStr;
use std::fs::File;
use std::io::{self, IsTerminal, Read, Write};
use std::path::PathBuf;

/// What is read.
pub enum Input {
    Standard,
    File(PathBuf),
}

impl Input {
    pub fn of(word: &OsStr) -> Self {
        match word == "-" {
            true => Input::Standard,
            false => Input::File(word.into()),
        }
    }

    /// Its name in messages.
    pub fn name(&self) -> String {
        match self {
            Input::Standard => "standard input".into(),
            Input::File(path) => show::path(path),
        }
    }

    /// Its bytes, but at most the first `limit`.
    pub fn read_up_to(&self, limit: usize) -> Result<Vec<u8>, Failure> {
        let read = match self {
            Input::Standard => read_all(io::stdin().lock(), limit),
            Input::File(path) => File::open(path).and_then(|file| read_all(file, limit)),
        };
        read.map_err(|error| Failure::named("read", self.name(), error))
    }
}

fn read_all(from: impl Read, limit: usize) -> io::Result<Vec<u8>> {
    let mut bytes = Vec::new();
    from.take(limit as u64).read_to_end(&mut bytes)?;
    Ok(bytes)
}

/// A burst file and its name in messages.
pub struct Burst {
    pub name: String,
    pub bytes: Vec<u8>,
}

/// One byte more than the largest burst is enough to see that a file is too
/// long to be one.
pub fn read_burst(file: &Input) -> Result<Burst, Failure> {
    let bytes = file.read_up_to(MAX_FILE_BYTES + 1)?;
    let name = file.name();
    Ok(Burst { name, bytes })
}

/// Where one file is written.
pub enum Output {
    Standard,
    File(PathBuf),
}

impl Output {
    pub fn of(word: &OsStr) -> Self {
        match word == "-" {
            true => Output::Standard,
            false => Output::File(word.into()),
        }
    }

    /// Its name in messages.
    pub fn name(&self) -> String {
        match self {
            Output::Standard => "standard output".into(),
            Output::File(path) => show::path(path),
        }
    }

    /// It may be written. The bytes of a file are not for a terminal.
    pub fn test(&self, force: bool) -> Result<(), Failure> {
        match self {
            Output::File(path) => outputs::test(path, force),
            Output::Standard if io::stdout().is_terminal() => Err(Failure::Terminal),
            Output::Standard => Ok(()),
        }
    }

    /// Writes a file that is complete.
    pub fn write(&self, bytes: &[u8], force: bool) -> Result<(), Failure> {
        self.test(force)?;
        match self {
            Output::File(path) => outputs::write_file(path, bytes, force),
            Output::Standard => write_out(bytes).map_err(Failure::Cut),
        }
    }

    /// Says what was written: on standard error, where the file itself went to
    /// standard output. Then the file stands, whether or not this can be said.
    pub fn report(&self, text: &str) -> Result<(), Failure> {
        match self {
            Output::File(_) => print(text),
            Output::Standard => {
                note(text);
                Ok(())
            }
        }
    }
}

fn write_out(bytes: &[u8]) -> io::Result<()> {
    let mut out = io::stdout().lock();
    out.write_all(bytes)?;
    out.flush()
}

/// Writes text to standard output.
pub fn print(text: &str) -> Result<(), Failure> {
    write_out(text.as_bytes()).map_err(Failure::Print)
}

/// Writes text to standard error, or leaves it out where that cannot be.
pub fn note(text: &str) {
    let _ = io::stderr().write_all(text.as_bytes());
}
