//! Who may read and write an output, which until then is its owner's alone.

use crate::system::{access_list, set_access_list, umask, O_DIRECTORY, O_NOFOLLOW};
use std::fs::{self, File, Metadata, OpenOptions, Permissions};
use std::io::{self, ErrorKind};
use std::os::unix::fs::{fchown, MetadataExt, OpenOptionsExt, PermissionsExt};
use std::path::Path;

/// Gives a file the rights of every new file.
pub fn give_new(file: &File) -> io::Result<()> {
    file.set_permissions(Permissions::from_mode(0o666 & !umask()))
}

/// Gives a folder the rights of every new folder, and leaves what it has from
/// the folder above it.
pub fn give_new_folder(path: &Path) -> io::Result<()> {
    // The folder itself, not what a link leads to.
    let mut options = OpenOptions::new();
    options.read(true).custom_flags(O_DIRECTORY | O_NOFOLLOW);
    let folder = options.open(path)?;
    let mode = folder.metadata()?.mode() & 0o7777;
    let mode = (mode & !0o777) | (0o777 & !umask());
    folder.set_permissions(Permissions::from_mode(mode))
}

/// Gives a file the rights of the file that it replaces, if there is one.
pub fn give(file: &File, target: &Path) -> io::Result<()> {
    let old = match fs::symlink_metadata(target) {
        Err(error) if error.kind() == ErrorKind::NotFound => return give_new(file),
        found => found?,
    };
    let mode = match keep(file, target, &old) {
        Ok(()) => old.mode() & 0o777,
        // Where owner, group or list of rights cannot be kept, the rights of the
        // group and of others would go to somebody else: nobody gets them.
        Err(_) => old.mode() & 0o700,
    };
    file.set_permissions(Permissions::from_mode(mode))
}

/// Gives the file the owner, the group and the list of rights of the old one.
fn keep(file: &File, target: &Path, old: &Metadata) -> io::Result<()> {
    let now = file.metadata()?;
    if (now.uid(), now.gid()) != (old.uid(), old.gid()) {
        fchown(file, Some(old.uid()), Some(old.gid()))?;
    }
    set_access_list(file, access_list(target)?.as_deref())
}
