//! A file beside the store, which takes the store's name when it is whole and on the disk.

use crate::system;
use std::ffi::{OsStr, OsString};
use std::fs::{self, File, OpenOptions};
use std::io::{self, ErrorKind, Write};
use std::os::unix::ffi::{OsStrExt, OsStringExt};
use std::os::unix::fs::OpenOptionsExt;
use std::path::{Path, PathBuf};
use std::process;

/// A saved store shows every file's bytes, so that a new one is its maker's alone.
const MODE: u32 = 0o600;
const ENDING: &str = ".tmp";
/// Leaves room in a name of 255 bytes for what else is in it.
const LONGEST_STORE: usize = 200;

pub struct Temporary {
    path: PathBuf,
    file: File,
}

impl Temporary {
    /// A new file in the same directory.
    pub fn beside(path: &Path) -> io::Result<Temporary> {
        let mut number = 0;
        loop {
            let mut name = beginning(path);
            name.push(format!("{}-{number}{ENDING}", process::id()));
            let path = path.with_file_name(name);
            let made = OpenOptions::new()
                .write(true)
                .create_new(true)
                .mode(MODE)
                .open(&path);
            match made {
                Ok(file) => {
                    // As long as its maker runs it is no leftover. Where there are no locks, none is cleared.
                    let _ = file.try_lock();
                    return Ok(Temporary { path, file });
                }
                Err(error) if error.kind() == ErrorKind::AlreadyExists => number += 1,
                Err(error) => return Err(error),
            }
        }
    }

    pub fn file(&self) -> &File {
        &self.file
    }

    /// Writes all bytes, to the disk.
    pub fn write(&self, bytes: &[u8]) -> io::Result<()> {
        (&self.file).write_all(bytes)?;
        self.file.sync_all()
    }

    /// Puts it in the stead of the file that has the name.
    pub fn replace(&self, path: &Path) -> io::Result<()> {
        fs::rename(&self.path, path)
    }

    /// Gives it a name that no file has.
    pub fn take_new_name(&self, path: &Path) -> io::Result<()> {
        match system::rename_to_new(&self.path, path) {
            // A file system that cannot do so in one step may still link, and refuse a name that is taken.
            Err(error)
                if matches!(
                    error.kind(),
                    ErrorKind::InvalidInput | ErrorKind::Unsupported
                ) =>
            {
                fs::hard_link(&self.path, path)
            }
            renamed => renamed,
        }
    }
}

/// What the names of a store's temporary files begin with.
fn beginning(path: &Path) -> OsString {
    let store = path.file_name().unwrap_or_default().as_bytes();
    let store = &store[..store.len().min(LONGEST_STORE)];
    let name = [b".", store, b".mritvelja-"].concat();
    OsString::from_vec(name)
}

/// Removes the temporary files of a store whose makers were cut off. One that is still being written is locked.
pub fn clear(path: &Path) {
    let beginning = beginning(path);
    let entries = fs::read_dir(directory(path))
        .into_iter()
        .flatten()
        .flatten();
    let is_ours = |name: &OsStr| {
        let name = name.as_bytes();
        name.starts_with(beginning.as_bytes()) && name.ends_with(ENDING.as_bytes())
    };
    for entry in entries.filter(|entry| is_ours(&entry.file_name())) {
        let is_file = entry.file_type().is_ok_and(|kind| kind.is_file());
        let file = is_file.then(|| File::open(entry.path()).ok()).flatten();
        if file.is_some_and(|file| file.try_lock().is_ok()) {
            let _ = fs::remove_file(entry.path());
        }
    }
}

/// The directory in which a file is.
pub fn directory(path: &Path) -> &Path {
    match path.parent() {
        Some(parent) if parent != Path::new("") => parent,
        _ => Path::new("."),
    }
}

impl Drop for Temporary {
    /// Its own name goes, if it has not gone with a rename.
    fn drop(&mut self) {
        let _ = fs::remove_file(&self.path);
    }
}
