//! Resolving a path, one name at a time, from the root, and following the
//! symbolic links on the way.

use crate::access::Caller;
use crate::directory;
use crate::numbers::Slot;
use crate::path::{self, Path, Target};
use crate::records::Kind;
use crate::refusal::{Refusal, Refused};
use crate::rights::Rights;
use crate::rom;
use crate::tables::Store;

/// How many symbolic links one walk may follow.
const FOLLOWS: u32 = 8;

/// A file that a walk came to, and by how many names since it last was at the
/// root. A directory has one name only, so that this is how deep it lies.
#[derive(Clone, Copy)]
pub struct Reached {
    pub slot: Slot,
    pub depth: usize,
}

impl Reached {
    const ROOT: Reached = Reached {
        slot: Slot::ROOT,
        depth: 0,
    };
}

/// A name found in a directory, and what it names.
pub struct Found {
    pub parent: Slot,
    /// The entry that holds the name. The names of ROM stand in none.
    pub dirent: Option<usize>,
    pub slot: Slot,
}

impl Store<'_> {
    /// The slot that the path names, a symbolic link at its last name followed.
    pub fn walk(&self, caller: Caller, path: &Path) -> Result<Slot, Refused> {
        Ok(self.walk_names(caller, path.names())?.slot)
    }

    /// The slot that the path names, be it that of a symbolic link.
    pub fn walk_no_follow(&self, caller: Caller, path: &Path) -> Result<Slot, Refused> {
        match path.names().split_last() {
            Some((name, before)) => Ok(self.walk_to_last(caller, before, name)?.slot),
            None => Ok(Slot::ROOT),
        }
    }

    /// The parent directory of the path's last name, with its three checks.
    pub fn walk_to_parent(&self, caller: Caller, target: &Target) -> Result<Reached, Refused> {
        let parent = self.walk_names(caller, target.parent.names())?;
        self.check_directory(caller, parent.slot)
            .map_err(|refusal| refusal.at_name(target.last()))?;
        Ok(parent)
    }

    /// As a walk that does not follow the last name, for calls that go on to
    /// change the parent.
    pub fn walk_to_name(&self, caller: Caller, target: &Target) -> Result<Found, Refused> {
        self.walk_to_last(caller, target.parent.names(), target.name)
    }

    fn walk_to_last(
        &self,
        caller: Caller,
        before: &[&[u8]],
        name: &[u8],
    ) -> Result<Found, Refused> {
        let parent = self.walk_names(caller, before)?;
        self.look_up(caller, parent.slot, name)
            .map_err(|refusal| refusal.at_name(before.len() + 1))
    }

    /// A whole walk along names of the caller's path, each link followed. What
    /// is refused inside a link's text counts at the name that met the link.
    fn walk_names(&self, caller: Caller, names: &[&[u8]]) -> Result<Reached, Refused> {
        let mut follows = FOLLOWS;
        let mut at = Reached::ROOT;
        for (index, name) in names.iter().enumerate() {
            at = self
                .step(caller, at, name, &mut follows)
                .map_err(|refusal| refusal.at_name(index + 1))?;
        }
        Ok(at)
    }

    /// Goes one name further, and through the symbolic link if there is one.
    fn step(
        &self,
        caller: Caller,
        from: Reached,
        name: &[u8],
        follows: &mut u32,
    ) -> Result<Reached, Refusal> {
        let slot = self.look_up(caller, from.slot, name)?.slot;
        if self.file(slot).kind == Kind::SYMLINK {
            return self.follow(caller, slot, follows);
        }
        Ok(Reached {
            slot,
            depth: from.depth + 1,
        })
    }

    /// Where a symbolic link leads: its text is walked from the root, with all
    /// its names followed, out of what the whole walk may follow.
    fn follow(&self, caller: Caller, symlink: Slot, follows: &mut u32) -> Result<Reached, Refusal> {
        *follows = follows.checked_sub(1).ok_or(Refusal::TooDeep)?;
        path::names(self.bytes(symlink)).try_fold(Reached::ROOT, |at, name| {
            self.step(caller, at, name, follows)
        })
    }

    fn look_up(&self, caller: Caller, parent: Slot, name: &[u8]) -> Result<Found, Refusal> {
        self.check_directory(caller, parent)?;
        self.find(parent, name).ok_or(Refusal::NameMissing)
    }

    /// The name in a directory, if that holds it.
    #[inline]
    pub fn find(&self, parent: Slot, name: &[u8]) -> Option<Found> {
        if parent == Slot::ROM {
            return self.rom().find(name).map(|slot| Found {
                parent,
                dirent: None,
                slot,
            });
        }
        let block = self.block(parent);
        let dirent = directory::find(block, name);
        let slot = match dirent {
            Some(dirent) => directory::slot_at(block, dirent),
            None if parent == Slot::ROOT && name == rom::NAME => Slot::ROM,
            None => return None,
        };
        Some(Found {
            parent,
            dirent,
            slot,
        })
    }

    /// The three checks of a directory in which a name is looked for.
    fn check_directory(&self, caller: Caller, slot: Slot) -> Result<(), Refusal> {
        if self.file(slot).kind != Kind::DIRECTORY {
            return Err(Refusal::NotADirectory);
        }
        self.check_rights(caller, slot, Rights::EXECUTE)
    }

    /// Refuses a file of another kind than the call needs.
    pub fn check_kind(&self, slot: Slot, kind: Kind) -> Result<(), Refusal> {
        if self.file(slot).kind == kind {
            Ok(())
        } else {
            Err(Refusal::WrongKind)
        }
    }
}
