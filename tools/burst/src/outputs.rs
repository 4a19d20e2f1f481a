//! Output files that are written whole or not at all: under hidden names first,
//! readable by their owner alone, while signals that end a program wait.

use crate::messages::{tell_left, Failure};
use crate::rights;
use crate::system::{rename_new, Held};
use std::ffi::{OsStr, OsString};
use std::fs::{self, DirBuilder, File, OpenOptions};
use std::io::{self, ErrorKind, Write};
use std::os::unix::fs::{DirBuilderExt, OpenOptionsExt};
use std::path::{Path, PathBuf};
use std::sync::atomic::{AtomicU32, Ordering};

/// The target may be written: nothing is there, or a plain file and force.
pub fn test(target: &Path, force: bool) -> Result<(), Failure> {
    match fs::symlink_metadata(target) {
        Err(error) if error.kind() == ErrorKind::NotFound => Ok(()),
        Err(error) => Err(Failure::file("look at", target, error)),
        Ok(found) if !found.is_file() => Err(Failure::NotAFile(target.into())),
        Ok(_) if !force => Err(Failure::Exists(target.into())),
        Ok(_) => Ok(()),
    }
}

/// Writes one file.
pub fn write_file(target: &Path, bytes: &[u8], force: bool) -> Result<(), Failure> {
    OneFile::write(target, bytes, force)?.place()
}

/// A file under a hidden name beside its target. Dropped before it is placed, it
/// is removed.
struct OneFile {
    target: PathBuf,
    force: bool,
    file: File,
    hidden: PathBuf,
    placed: bool,
    /// Dropped last, after the file is placed or removed.
    held: Held,
}

impl OneFile {
    fn write(target: &Path, bytes: &[u8], force: bool) -> Result<Self, Failure> {
        test(target, force)?;
        let failed = |error| Failure::file("write", target, error);
        if target.file_name().is_none() {
            return Err(failed(names_nothing()));
        }
        let held = Held::new();
        let (file, hidden) = new_in(folder_of(target), create_file).map_err(failed)?;
        let one = OneFile {
            target: target.into(),
            force,
            file,
            hidden,
            placed: false,
            held,
        };
        fill(&one.file, bytes, target, &one.held)?;
        Ok(one)
    }

    fn place(mut self) -> Result<(), Failure> {
        test(&self.target, self.force)?;
        let given = rights::give(&self.file, &self.target);
        given.map_err(|error| Failure::file("write", &self.target, error))?;
        look(&self.held)?;
        name(&self.hidden, &self.target, self.force)?;
        self.placed = true;
        sync(folder_of(&self.target));
        Ok(())
    }

    /// Removes the hidden file, and gives what is left of it.
    fn take_back(&self) -> Vec<Failure> {
        let removed = removed(&self.hidden, fs::remove_file(&self.hidden));
        removed.err().into_iter().collect()
    }
}

impl Drop for OneFile {
    fn drop(&mut self) {
        if !self.placed {
            tell_left(&self.take_back());
        }
    }
}

/// The folder of `fetch --all`. Its pictures are written into a hidden folder,
/// beside it where it is new, and in it where it is there already. Dropped
/// before it is placed, it takes everything back.
///
/// A folder that is there stays the one it is, with its owner and its rights:
/// a shell may stand in it, or a disk be mounted on it.
pub struct Folder {
    folder: PathBuf,
    force: bool,
    /// A folder that was not there.
    is_new: bool,
    hidden: PathBuf,
    pictures: Vec<Picture>,
    placed: bool,
    /// Dropped last, after all is placed or taken back.
    held: Held,
}

/// A picture that waits in the hidden folder under its own name.
struct Picture {
    name: String,
    file: File,
    /// The file that it replaces was moved to the hidden folder.
    replaced: bool,
    placed: bool,
}

impl Folder {
    /// A folder that is there is empty, unless force.
    pub fn new(typed: &Path, force: bool) -> Result<Self, Failure> {
        // Without a slash or a dot at its end.
        let folder: PathBuf = typed.components().collect();
        let is_new = is_new(&folder)?;
        if !is_new && !force {
            test_empty(&folder, None)?;
        }
        let failed = |error| Failure::file("make", &folder, error);
        let above = match is_new {
            true if folder.file_name().is_none() => return Err(failed(names_nothing())),
            true => folder_of(&folder),
            false => &folder,
        };
        let held = Held::new();
        let ((), hidden) = new_in(above, create_folder).map_err(failed)?;
        Ok(Folder {
            folder,
            force,
            is_new,
            hidden,
            pictures: Vec::new(),
            placed: false,
            held,
        })
    }

    /// Where a picture of this name is found in the end.
    pub fn target(&self, name: &str) -> PathBuf {
        self.folder.join(name)
    }

    /// Writes a picture into the hidden folder.
    pub fn write(&mut self, name: &str, bytes: &[u8]) -> Result<(), Failure> {
        look(&self.held)?;
        let target = self.target(name);
        if !self.is_new {
            test(&target, self.force)?;
        }
        let file = create_file(&self.hidden.join(name));
        let file = file.map_err(|error| Failure::file("write", &target, error))?;
        self.pictures.push(Picture {
            name: name.into(),
            file,
            replaced: false,
            placed: false,
        });
        let file = &self.pictures[self.pictures.len() - 1].file;
        fill(file, bytes, &target, &self.held)
    }

    /// Gives the pictures their places. From the last look at the signals on,
    /// all are placed before one of these ends the program.
    pub fn place(mut self) -> Result<(), Failure> {
        match (self.is_new, self.force) {
            (true, _) if !is_new(&self.folder)? => return Err(self.made_meanwhile()),
            (false, false) => test_empty(&self.folder, self.hidden.file_name())?,
            _ => (),
        }
        for picture in &self.pictures {
            let target = self.target(&picture.name);
            let given = match self.is_new {
                true => rights::give_new(&picture.file),
                false => rights::give(&picture.file, &target),
            };
            given.map_err(|error| Failure::file("write", &target, error))?;
        }
        look(&self.held)?;
        match self.is_new {
            true => self.rename()?,
            false => self.move_in()?,
        }
        self.placed = true;
        tell_left(&self.clean_up());
        sync(&self.folder);
        sync(folder_of(&self.folder));
        Ok(())
    }

    /// A new folder gets its name in one step.
    fn rename(&self) -> Result<(), Failure> {
        let failed = |error| Failure::file("make", &self.folder, error);
        sync(&self.hidden);
        rights::give_new_folder(&self.hidden).map_err(failed)?;
        rename_new(&self.hidden, &self.folder).map_err(|error| match error.kind() {
            ErrorKind::AlreadyExists | ErrorKind::DirectoryNotEmpty | ErrorKind::NotADirectory => {
                self.made_meanwhile()
            }
            _ => failed(error),
        })
    }

    /// Somebody else has made meanwhile what has the name of the new folder.
    fn made_meanwhile(&self) -> Failure {
        let found = is_new(&self.folder).and_then(|_| match self.force {
            true => Ok(()),
            false => test_empty(&self.folder, None),
        });
        match found {
            Err(failure) => failure,
            Ok(()) => Failure::Meanwhile(self.folder.clone()),
        }
    }

    /// Into a folder that is there the pictures go one after the other.
    fn move_in(&mut self) -> Result<(), Failure> {
        for picture in &self.pictures {
            test(&self.target(&picture.name), self.force)?;
        }
        for picture in &mut self.pictures {
            let target = self.folder.join(&picture.name);
            picture.place(&target, &self.hidden, self.force)?;
        }
        Ok(())
    }

    /// After all are placed: removes the files that were replaced and the hidden
    /// folder, and gives what is left of them.
    fn clean_up(&self) -> Vec<Failure> {
        let replaced = self.pictures.iter().filter(|picture| picture.replaced);
        let aside = replaced.map(|picture| picture.aside(&self.hidden));
        let mut left: Vec<Failure> = aside
            .filter_map(|path| removed(&path, fs::remove_file(&path)).err())
            .collect();
        left.extend(self.remove_hidden().err());
        left
    }

    /// Takes everything back, and gives what is left of it.
    fn take_back(&self) -> Vec<Failure> {
        let pictures = self.pictures.iter().rev();
        let mut left: Vec<Failure> = pictures
            .flat_map(|picture| picture.take_back(&self.target(&picture.name), &self.hidden))
            .collect();
        left.extend(self.remove_hidden().err());
        left
    }

    /// A new folder that is placed has no hidden one any more.
    fn remove_hidden(&self) -> Result<(), Failure> {
        removed(&self.hidden, fs::remove_dir(&self.hidden))
    }
}

impl Drop for Folder {
    fn drop(&mut self) {
        if !self.placed {
            tell_left(&self.take_back());
        }
    }
}

impl Picture {
    /// Where the file is kept that the picture replaces.
    fn aside(&self, hidden: &Path) -> PathBuf {
        hidden.join(format!("replaced-{}", self.name))
    }

    fn place(&mut self, target: &Path, hidden: &Path, force: bool) -> Result<(), Failure> {
        if force && target.is_file() {
            let kept = fs::rename(target, self.aside(hidden));
            kept.map_err(|error| Failure::file("write", target, error))?;
            self.replaced = true;
        }
        name(&hidden.join(&self.name), target, force)?;
        self.placed = true;
        Ok(())
    }

    /// Gives what is left of the picture, and of the file that it has replaced.
    fn take_back(&self, target: &Path, hidden: &Path) -> Vec<Failure> {
        let own = match self.placed {
            true => target.into(),
            false => hidden.join(&self.name),
        };
        let taken = removed(&own, fs::remove_file(&own));
        let put_back = match self.replaced {
            true => fs::rename(self.aside(hidden), target),
            false => Ok(()),
        };
        let put_back = put_back.map_err(|error| Failure::file("put back", target, error));
        taken.err().into_iter().chain(put_back.err()).collect()
    }
}

/// How a file or folder was removed; one that was gone already is no failure.
fn removed(path: &Path, result: io::Result<()>) -> Result<(), Failure> {
    match result {
        Err(error) if error.kind() == ErrorKind::NotFound => Ok(()),
        result => result.map_err(|error| Failure::file("remove", path, error)),
    }
}

/// Whether there is no folder of this name yet. Anything else that has the name
/// is refused.
fn is_new(folder: &Path) -> Result<bool, Failure> {
    match fs::metadata(folder) {
        Ok(found) if found.is_dir() => Ok(false),
        Ok(_) => Err(Failure::NotAFolder(folder.into())),
        Err(error) if error.kind() == ErrorKind::NotFound => {
            // A link that leads nowhere has the name too.
            match fs::symlink_metadata(folder) {
                Ok(_) => Err(Failure::NotAFolder(folder.into())),
                Err(_) => Ok(true),
            }
        }
        Err(error) => Err(Failure::file("look at", folder, error)),
    }
}

/// Nothing stands in the folder but what has this name.
fn test_empty(folder: &Path, own: Option<&OsStr>) -> Result<(), Failure> {
    let failed = |error| Failure::file("look at", folder, error);
    let mut others = Vec::new();
    for entry in fs::read_dir(folder).map_err(failed)? {
        let name = entry.map_err(failed)?.file_name();
        if Some(name.as_os_str()) != own {
            others.push(name);
        }
    }
    if others.is_empty() {
        return Ok(());
    }
    let is_hidden = |name: &&OsString| name.as_encoded_bytes().starts_with(HIDDEN.as_bytes());
    let left = others.iter().find(is_hidden).map(|name| folder.join(name));
    Err(Failure::NotEmpty {
        folder: folder.into(),
        left,
    })
}

/// The program ends, since a signal has come that asks for it.
fn look(held: &Held) -> Result<(), Failure> {
    match held.asked_to_end() {
        true => Err(Failure::Interrupted),
        false => Ok(()),
    }
}

/// So many bytes are written between two looks at the signals.
const STEP_BYTES: usize = 1_048_576;

/// Writes the bytes of the target into its hidden file, to the disk.
fn fill(mut file: &File, bytes: &[u8], target: &Path, held: &Held) -> Result<(), Failure> {
    let failed = |error| Failure::file("write", target, error);
    for step in bytes.chunks(STEP_BYTES) {
        look(held)?;
        file.write_all(step).map_err(failed)?;
    }
    look(held)?;
    file.sync_all().map_err(failed)
}

/// Gives a hidden file its name. Without force it replaces nothing, not even a
/// file that was made since the last look.
fn name(hidden: &Path, target: &Path, force: bool) -> Result<(), Failure> {
    let named = match force {
        true => fs::rename(hidden, target),
        false => rename_new(hidden, target),
    };
    named.map_err(|error| match error.kind() {
        ErrorKind::AlreadyExists => Failure::Exists(target.into()),
        _ => Failure::file("write", target, error),
    })
}

/// The names in a folder are on the disk. Not every file system can say so, so
/// that its answer is not asked for; the bytes of the files are there already.
fn sync(folder: &Path) {
    if let Ok(folder) = File::open(folder) {
        let _ = folder.sync_all();
    }
}

fn folder_of(target: &Path) -> &Path {
    match target.parent() {
        Some(folder) if folder != Path::new("") => folder,
        _ => Path::new("."),
    }
}

fn names_nothing() -> io::Error {
    io::Error::new(ErrorKind::InvalidInput, "it is no name of its own")
}

/// The front of hidden names; process number and a count follow.
const HIDDEN: &str = ".burst-";

/// How many hidden names were tried; none is tried twice.
static TRIED: AtomicU32 = AtomicU32::new(0);

/// A new file or folder in a folder, with a hidden name that nothing has yet.
fn new_in<T>(folder: &Path, create: impl Fn(&Path) -> io::Result<T>) -> io::Result<(T, PathBuf)> {
    loop {
        let number = TRIED.fetch_add(1, Ordering::Relaxed);
        let name = format!("{HIDDEN}{}-{number}", std::process::id());
        let path = folder.join(name);
        match create(&path) {
            Err(error) if error.kind() == ErrorKind::AlreadyExists => continue,
            created => return Ok((created?, path)),
        }
    }
}

/// A new file for its owner alone.
fn create_file(path: &Path) -> io::Result<File> {
    OpenOptions::new()
        .write(true)
        .create_new(true)
        .mode(0o600)
        .open(path)
}

/// A new folder for its owner alone.
fn create_folder(path: &Path) -> io::Result<()> {
    DirBuilder::new().mode(0o700).create(path)
}

#[cfg(test)]
mod tests;
