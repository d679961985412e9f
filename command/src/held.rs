//! A store file as it lies on the disk: read, made, and held while it is changed.

use crate::arguments::Store;
use crate::failure::Failure;
use crate::format::{self, Refused, FORMER_VERSION, VERSION};
use crate::former;
use crate::lock::{self, Kind};
use crate::rom;
use crate::save::{self, Trouble, CANNOT_BE_SAVED};
use crate::temporary::{self, Temporary};
use crate::text;
use mritvelja::Tables;
use std::fs::{self, File};
use std::io::{self, ErrorKind, Read, Seek};
use std::path::{Path, PathBuf};

/// Reads a store, when no run changes it, and first the factory part beside it.
pub fn read(store: &Store) -> Result<Tables, Failure> {
    let rom = rom::read(store.rom.as_deref())?;
    let tables = decode(&store.path, &read_bytes(store)?)?;
    Ok(Tables { rom, ..tables })
}

/// Reads a store from a file of version 1, and converts it.
pub fn read_former(store: &Store) -> Result<Tables, Failure> {
    let bytes = read_bytes(store)?;
    let tables = former::decode(&bytes.first, bytes.length);
    tables.map_err(|why| Failure::of(&store.path, why))
}

fn read_bytes(store: &Store) -> Result<Bytes, Failure> {
    let (_, file) = lock::open(store, Kind::Shared)?;
    Bytes::of(&store.path, &file)
}

/// What remains to be told of a store that is in its file: nothing, or what may become of it.
pub type Warning = Option<Failure>;

/// Writes a store to a new file, and leaves none behind if that fails.
pub fn create(path: &Path, tables: &Tables) -> Result<Warning, Failure> {
    let cannot = |error: io::Error| match error.kind() {
        ErrorKind::AlreadyExists => Failure::of(path, "is already there, and is left as it is"),
        _ => Failure::tried(path, "cannot be made", &error),
    };
    // Asked first, so that nothing is written in vain.
    if fs::symlink_metadata(path).is_ok() {
        return Err(cannot(ErrorKind::AlreadyExists.into()));
    }
    temporary::clear(path);
    let temporary = Temporary::beside(path).map_err(cannot)?;
    temporary
        .write(&format::encode(tables))
        .and_then(|()| temporary.take_new_name(path))
        .map_err(cannot)?;
    Ok(warning(
        path,
        "is made, but may be lost with the power",
        save::sync_name(path, temporary.file()),
    ))
}

fn warning(path: &Path, what_is: &str, synced: io::Result<()>) -> Warning {
    let error = synced.err()?;
    Some(Failure::tried(path, what_is, &error))
}

/// A store that no other run of this program changes until this is dropped.
pub struct Held {
    /// The file as the user named it.
    named: PathBuf,
    /// The file itself, symbolic links resolved, so that a link stays one.
    path: PathBuf,
    /// The lock is this handle's.
    file: File,
    /// What the file held when the lock was taken.
    bytes: Bytes,
}

impl Held {
    /// Waits until no other run holds the store. What runs that were cut off left beside it goes.
    pub fn new(store: &Store) -> Result<Held, Failure> {
        let (path, file) = lock::open(store, Kind::Exclusive)?;
        temporary::clear(&path);
        Ok(Held {
            named: store.path.clone(),
            path,
            bytes: Bytes::of(&store.path, &file)?,
            file,
        })
    }

    /// The store, beside a factory part.
    pub fn load(&self, rom: Vec<u8>) -> Result<Tables, Failure> {
        let tables = decode(&self.named, &self.bytes)?;
        Ok(Tables { rom, ..tables })
    }

    pub fn save(&self, tables: &Tables) -> Result<Warning, Failure> {
        self.require_as_read()?;
        let cannot = |(tried, error): Trouble| Failure::tried(&self.named, tried, &error);
        let new = save::prepare(&self.path, &self.file, &format::encode(tables)).map_err(cannot)?;
        self.require_as_read()?;
        new.replace(&self.path)
            .map_err(|error| cannot((CANNOT_BE_SAVED, error)))?;
        Ok(warning(
            &self.named,
            "is saved, but may be lost with the power",
            save::sync_name(&self.path, new.file()),
        ))
    }

    /// Other programs know nothing of the lock. What they did with the file is not overwritten.
    fn require_as_read(&self) -> Result<(), Failure> {
        let is_as_read = lock::has_name(&self.file, &self.named)
            && lock::has_name(&self.file, &self.path)
            && Bytes::of(&self.named, &self.file)? == self.bytes;
        match is_as_read {
            true => Ok(()),
            false => Err(Failure::of(
                &self.named,
                "was changed or replaced by another program meanwhile; nothing was saved",
            )),
        }
    }
}

fn decode(path: &Path, bytes: &Bytes) -> Result<Tables, Failure> {
    format::decode(&bytes.first, bytes.length).map_err(|refused| match refused {
        Refused::Former => Failure::of(path, is_former(path)),
        Refused::Other(why) => Failure::of(path, why),
    })
}

fn is_former(path: &Path) -> String {
    format!(
        "is a store file of version {FORMER_VERSION}, not {VERSION}: convert it with `mritvelja convert {} NEW`",
        text::quoted(path.as_os_str())
    )
}

/// What a file holds, as far as a store goes.
#[derive(PartialEq, Eq)]
struct Bytes {
    /// As many as a store has, if there are as many.
    first: Vec<u8>,
    /// How many there are.
    length: u64,
}

impl Bytes {
    fn of(path: &Path, mut file: &File) -> Result<Bytes, Failure> {
        let mut first = Vec::with_capacity(format::SIZE);
        file.rewind()
            .and_then(|()| file.take(format::SIZE as u64).read_to_end(&mut first))
            .and_then(|_| file.metadata())
            .map(|metadata| Bytes {
                first,
                length: metadata.len(),
            })
            .map_err(|error| Failure::tried(path, "cannot be read", &error))
    }
}
