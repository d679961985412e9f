//! The lock on a store's file, which runs of this program take in turn.

use crate::arguments::Store;
use crate::failure::Failure;
use crate::output;
use crate::text;
use std::ffi::OsStr;
use std::fs::{self, File, TryLockError};
use std::io;
use std::os::unix::fs::MetadataExt;
use std::path::{Path, PathBuf};
use std::thread;
use std::time::{Duration, Instant};

/// How long a lock is waited for in silence.
const SILENCE: Duration = Duration::from_secs(1);
const PAUSE: Duration = Duration::from_millis(10);

#[derive(Clone, Copy, PartialEq, Eq)]
pub enum Kind {
    /// With others that only read.
    Shared,
    /// Alone.
    Exclusive,
}

/// How long to wait for a lock; without end if there is nothing.
pub type Wait = Option<Duration>;

/// Opens a store's file and locks it. Gives its path too, symbolic links resolved.
pub fn open(store: &Store, kind: Kind) -> Result<(PathBuf, File), Failure> {
    let named = &store.path;
    // An end that no clock reaches is none.
    let deadline = store
        .wait
        .and_then(|wait| Some((wait, Instant::now().checked_add(wait)?)));
    loop {
        let path = fs::canonicalize(named)
            .map_err(|error| Failure::tried(named, "cannot be opened", &error))?;
        let file = open_regular(&path, named)?;
        take(named, &file, kind, deadline)?;
        // A run that was waited for may have put another file in its place.
        if has_name(&file, &path) {
            return Ok((path, file));
        }
    }
}

/// Whether an open file still has a name.
pub fn has_name(file: &File, path: &Path) -> bool {
    let identity = |metadata: fs::Metadata| (metadata.dev(), metadata.ino());
    match (file.metadata(), fs::metadata(path)) {
        (Ok(held), Ok(there)) => identity(held) == identity(there),
        _ => false,
    }
}

fn open_regular(path: &Path, named: &Path) -> Result<File, Failure> {
    let cannot = |error| Failure::tried(named, "cannot be opened", &error);
    // Looked at before it is opened: opening a pipe would wait for its other end.
    if !fs::metadata(path).map_err(cannot)?.is_file() {
        return Err(Failure::of(named, "is not a regular file"));
    }
    File::open(path).map_err(cannot)
}

/// Takes the lock. A wait that is longer than a moment is told.
fn take(
    named: &Path,
    file: &File,
    kind: Kind,
    deadline: Option<(Duration, Instant)>,
) -> Result<(), Failure> {
    let told_at = Instant::now() + SILENCE;
    let mut is_told = false;
    loop {
        match try_take(file, kind) {
            Ok(true) => return Ok(()),
            Ok(false) => {}
            // What only reads can do so where there are no locks.
            Err(_) if kind == Kind::Shared => return Ok(()),
            Err(error) => return Err(Failure::tried(named, "cannot be locked", &error)),
        }
        let now = Instant::now();
        if let Some((wait, _)) = deadline.filter(|&(_, end)| now >= end) {
            let seconds = text::count(wait.as_secs(), "second", "seconds");
            let why = format!(
                "is still locked after {seconds}{}; nothing was changed",
                holders(file)
            );
            return Err(Failure::of(named, why));
        }
        if now >= told_at && !is_told {
            output::tell(Failure::of(
                named,
                format!("waits for its lock{}", holders(file)),
            ));
            is_told = true;
        }
        thread::sleep(PAUSE);
    }
}

fn try_take(file: &File, kind: Kind) -> io::Result<bool> {
    let tried = match kind {
        Kind::Shared => file.try_lock_shared(),
        Kind::Exclusive => file.try_lock(),
    };
    match tried {
        Ok(()) => Ok(true),
        Err(TryLockError::WouldBlock) => Ok(false),
        Err(TryLockError::Error(error)) => Err(error),
    }
}

/// Who may hold a file's lock, as far as the system tells.
fn holders(file: &File) -> String {
    let named: Vec<String> = takers(file)
        .unwrap_or_default()
        .iter()
        .filter_map(|process| {
            // One that is gone left its lock to another, which is not known.
            let name = fs::read_to_string(format!("/proc/{process}/comm")).ok()?;
            let name = text::printable(OsStr::new(name.trim_end()));
            Some(format!("{process} ({name})"))
        })
        .collect();
    match named.is_empty() {
        true => ", which another program holds".into(),
        false => format!(", which process {} may hold", named.join(", ")),
    }
}

/// The processes that took locks on a file of this number, by the system's table of locks.
fn takers(file: &File) -> Option<Vec<String>> {
    let ending = format!(":{}", file.metadata().ok()?.ino());
    let table = fs::read_to_string("/proc/locks").ok()?;
    let takers = table.lines().filter_map(|line| {
        let words: Vec<&str> = line.split_whitespace().collect();
        match words[..] {
            [_, "FLOCK", _, _, process, file, ..] => {
                file.ends_with(&ending).then(|| process.into())
            }
            _ => None,
        }
    });
    Some(takers.collect())
}
