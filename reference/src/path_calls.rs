//! The other calls on a path: open, list, change bits, stat, execute and read
//! symbolic link.

use crate::access::Caller;
use crate::answer::Answer;
use crate::bits::Bits;
use crate::descriptor_calls::fill;
use crate::directory::{self, BLOCK};
use crate::numbers::Slot;
use crate::path::Path;
use crate::records::{Kind, OpenFile};
use crate::refusal::{Refusal, Refused};
use crate::rights::{Opening, Rights};
use crate::rom;
use crate::tables::Store;

impl Store<'_> {
    /// Call 1.
    pub fn open(
        &mut self,
        caller: Caller,
        path: &Path,
        opening: Opening,
    ) -> Result<Answer, Refused> {
        let slot = self.walk(caller, path)?;
        self.check_kind(slot, Kind::PLAIN)?;
        self.check_rights(caller, slot, opening.mode.wanted())?;
        let descriptor = self
            .lowest_free_descriptor(caller.process)
            .ok_or(Refusal::TableFull)?;
        let number = self.lowest_free_open_file().ok_or(Refusal::TableFull)?;
        let open_file = OpenFile {
            slot,
            mode: opening.mode,
            offset: 0,
            references: 1,
        };
        self.set_open_file(number, open_file);
        self.set_descriptor(caller.process, descriptor, Some(number));
        if opening.truncate {
            self.truncate(slot);
        }
        Ok(Answer::value(descriptor.index() as u32))
    }

    /// Empties a file. An empty one stays as it is.
    fn truncate(&mut self, slot: Slot) {
        if self.file(slot).length > 0 {
            *self.block_mut(slot) = [0; BLOCK];
            self.change_file(slot, |file| {
                file.length = 0;
                file.raise_version();
            });
        }
    }

    /// Call 7.
    pub fn list(&self, caller: Caller, path: &Path, index: usize) -> Result<Answer, Refused> {
        let slot = self.walk(caller, path)?;
        self.check_kind(slot, Kind::DIRECTORY)?;
        self.check_rights(caller, slot, Rights::READ)?;
        let name = self.name_in_order(slot, index);
        Ok(name.map_or_else(Answer::done, Answer::listed))
    }

    /// The `index`-th name of a directory. The root has one more than its
    /// entries and its length tell.
    fn name_in_order(&self, directory: Slot, index: usize) -> Option<&[u8]> {
        if directory == Slot::ROM {
            return self.rom().name_in_order(index);
        }
        let beside = (directory == Slot::ROOT).then_some(rom::NAME);
        directory::name_in_order(self.block(directory), beside, index)
    }

    /// Call 8.
    pub fn change_bits(
        &mut self,
        caller: Caller,
        path: &Path,
        bits: Bits,
    ) -> Result<Answer, Refused> {
        let slot = self.walk(caller, path)?;
        let file = self.file(slot);
        if slot.is_in_rom() || !caller.is_master_of(&file) {
            return Err(Refusal::BitsForbid.into());
        }
        self.tables().check_label(caller, &file, Rights::WRITE)?;
        self.change_file(slot, |file| file.bits = bits);
        Ok(Answer::done())
    }

    /// Call 9.
    pub fn stat(&self, caller: Caller, path: &Path) -> Result<Answer, Refused> {
        let slot = self.walk_no_follow(caller, path)?;
        Ok(Answer::stat(self.file(slot).words()))
    }

    /// Call 17.
    pub fn execute(&mut self, caller: Caller, path: &Path) -> Result<Answer, Refused> {
        let slot = self.walk(caller, path)?;
        self.check_kind(slot, Kind::PLAIN)?;
        self.check_execute(caller, slot)?;
        let program_label = self.file(slot).label;
        if let Some(label) = self.transition(caller.label, program_label) {
            self.set_process_label(caller.process, label);
        }
        Ok(Answer::done())
    }

    /// Call 19: as much of the text as the buffer holds.
    pub fn read_symlink(
        &self,
        caller: Caller,
        path: &Path,
        buffer: &mut [u8],
    ) -> Result<Answer, Refused> {
        let slot = self.walk_no_follow(caller, path)?;
        self.check_kind(slot, Kind::SYMLINK)?;
        let count = fill(buffer, self.bytes(slot));
        Ok(Answer::value(count as u32))
    }
}
