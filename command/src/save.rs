//! Replaces a file so that a crash leaves the old one or the new one whole.

use crate::attributes;
use crate::system;
use crate::temporary::{self, Temporary};
use std::fs::{self, File, OpenOptions};
use std::io;
use std::os::unix::fs::{fchown, MetadataExt};
use std::path::Path;

/// What was tried, and what the system said.
pub type Trouble = (&'static str, io::Error);

pub const CANNOT_BE_SAVED: &str = "cannot be saved";

/// Writes what is to take a file's place beside it. The old file, opened, gives
/// the new one its owner, group, permissions and attributes.
pub fn prepare(path: &Path, old: &File, bytes: &[u8]) -> Result<Temporary, Trouble> {
    // A file that may not be written is not replaced either.
    OpenOptions::new()
        .write(true)
        .open(path)
        .map_err(|error| ("cannot be written", error))?;
    let cannot = |error| (CANNOT_BE_SAVED, error);
    let temporary = Temporary::beside(path).map_err(cannot)?;
    take_after(temporary.file(), old)
        .and_then(|()| temporary.write(bytes))
        .map_err(cannot)?;
    Ok(temporary)
}

/// Gives a file the owner, group, permissions and attributes of another.
fn take_after(file: &File, old: &File) -> io::Result<()> {
    let metadata = old.metadata()?;
    keep_owner(file, &metadata)?;
    file.set_permissions(metadata.permissions())?;
    attributes::copy(old, file)
}

/// Keeps owner and group; of a file that is shared by its group, the group.
fn keep_owner(file: &File, old: &fs::Metadata) -> io::Result<()> {
    let new = file.metadata()?;
    if (new.uid(), new.gid()) == (old.uid(), old.gid()) {
        return Ok(());
    }
    fchown(file, Some(old.uid()), Some(old.gid())).or_else(|_| fchown(file, None, Some(old.gid())))
}

/// Sees to it that a file's name is on the disk, as its bytes are.
pub fn sync_name(path: &Path, file: &File) -> io::Result<()> {
    match File::open(temporary::directory(path)) {
        Ok(directory) => directory.sync_all(),
        // A directory that may be written need not be one that may be read.
        Err(_) => system::sync_file_system(file),
    }
}
