//! The calls that give and take names: create, make directory, make symbolic
//! link, unlink, remove directory, link and rename.

use crate::access::Caller;
use crate::answer::Answer;
use crate::bits::Bits;
use crate::directory;
use crate::numbers::Slot;
use crate::path::{Path, Target, NAMES};
use crate::records::{File, Kind};
use crate::refusal::{Refusal, Refused};
use crate::rights::Rights;
use crate::tables::Store;
use crate::walk::{Found, Reached};

impl Store<'_> {
    /// Calls 2 and 3: an empty plain file, or a directory.
    pub fn make(
        &mut self,
        caller: Caller,
        kind: Kind,
        target: &Target,
        bits: Bits,
    ) -> Result<Answer, Refused> {
        let slot = self.make_file(caller, kind, target, bits)?;
        Ok(Answer::value(slot.0))
    }

    /// Call 18.
    pub fn make_symlink(
        &mut self,
        caller: Caller,
        target: &Target,
        text: &[u8],
    ) -> Result<Answer, Refused> {
        let slot = self.make_file(caller, Kind::SYMLINK, target, Bits::NONE)?;
        self.block_mut(slot)[..text.len()].copy_from_slice(text);
        self.change_file(slot, |symlink| symlink.length = text.len() as u32);
        Ok(Answer::value(slot.0))
    }

    /// A new file of the caller, with no bytes yet.
    fn make_file(
        &mut self,
        caller: Caller,
        kind: Kind,
        target: &Target,
        bits: Bits,
    ) -> Result<Slot, Refused> {
        let Reached {
            slot: parent,
            depth,
        } = self.walk_to_new_name(caller, target)?;
        self.check_rights(caller, parent, Rights::WRITE)?;
        // Only the depth of directories is bound.
        if kind == Kind::DIRECTORY && depth >= NAMES {
            return Err(Refusal::TooDeep.into());
        }
        let slot = self.lowest_free_slot().ok_or(Refusal::TableFull)?;
        let dirent = self.check_dirent(parent)?;
        let made = File {
            kind,
            owner: caller.user,
            group: caller.group,
            bits,
            label: self.file(parent).label,
            ..File::free(self.file(slot).version)
        };
        self.set_file(slot, made);
        self.add_name(parent, dirent, target.name, slot);
        Ok(slot)
    }

    /// Call 4.
    pub fn unlink(&mut self, caller: Caller, target: &Target) -> Result<Answer, Refused> {
        let found = self.walk_to_name(caller, target)?;
        self.check_no_directory(found.slot)?;
        let dirent = self.check_removal(caller, &found)?;
        self.remove_name(found.parent, dirent, found.slot);
        self.free_if_unreachable(found.slot);
        Ok(Answer::done())
    }

    /// Call 5.
    pub fn remove_directory(&mut self, caller: Caller, target: &Target) -> Result<Answer, Refused> {
        let found = self.walk_to_name(caller, target)?;
        self.check_kind(found.slot, Kind::DIRECTORY)?;
        let dirent = self.check_removal(caller, &found)?;
        if self.file(found.slot).length > 0 {
            return Err(Refusal::NotEmpty.into());
        }
        self.remove_name(found.parent, dirent, found.slot);
        self.free(found.slot);
        Ok(Answer::done())
    }

    /// Call 6.
    pub fn link(&mut self, caller: Caller, old: &Path, new: &Target) -> Result<Answer, Refused> {
        let slot = self.walk_no_follow(caller, old)?;
        self.check_kind(slot, Kind::PLAIN)?;
        let parent = self.walk_to_new_name(caller, new)?.slot;
        // Nobody can give another name to what is in ROM.
        if slot.is_in_rom() {
            return Err(Refusal::BitsForbid.into());
        }
        self.check_rights(caller, parent, Rights::WRITE)?;
        let dirent = self.check_dirent(parent)?;
        self.add_name(parent, dirent, new.name, slot);
        Ok(Answer::done())
    }

    /// Call 20. A directory stays in its parent, so that it comes to lie
    /// neither in itself nor deeper than it may.
    pub fn rename(
        &mut self,
        caller: Caller,
        old: &Target,
        new: &Target,
    ) -> Result<Answer, Refused> {
        let found = self.walk_to_name(caller, old)?;
        let parent = self.walk_to_new_name(caller, new)?.slot;
        let dirent = self.check_removal(caller, &found)?;
        self.check_rights(caller, parent, Rights::WRITE)?;
        if parent == found.parent {
            self.change_name(parent, dirent, new.name);
        } else {
            self.check_no_directory(found.slot)?;
            let free = self.check_dirent(parent)?;
            self.add_name(parent, free, new.name, found.slot);
            self.remove_name(found.parent, dirent, found.slot);
        }
        Ok(Answer::done())
    }

    /// The parent of a path's last name, which must not be there yet.
    fn walk_to_new_name(&self, caller: Caller, target: &Target) -> Result<Reached, Refused> {
        let parent = self.walk_to_parent(caller, target)?;
        match self.find(parent.slot, target.name) {
            Some(_) => Err(Refusal::NameThere.into()),
            None => Ok(parent),
        }
    }

    /// Refuses to take a name away, those of ROM to everyone; the entry that
    /// holds it.
    fn check_removal(&self, caller: Caller, found: &Found) -> Result<usize, Refusal> {
        let dirent = found.dirent.ok_or(Refusal::BitsForbid)?;
        self.check_rights(caller, found.parent, Rights::WRITE)?;
        Ok(dirent)
    }

    /// Refuses a directory to the calls that take any other kind of file.
    fn check_no_directory(&self, slot: Slot) -> Result<(), Refusal> {
        if self.file(slot).kind == Kind::DIRECTORY {
            return Err(Refusal::WrongKind);
        }
        Ok(())
    }

    fn check_dirent(&self, parent: Slot) -> Result<usize, Refusal> {
        directory::free_dirent(self.block(parent)).ok_or(Refusal::TableFull)
    }
}
