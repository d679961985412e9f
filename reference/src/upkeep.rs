//! What is free, and what keeps a file alive: its links and open files.

use crate::directory::{self, BLOCK};
use crate::numbers::{Descriptor, OpenFileNumber, ProcessNumber, Slot};
use crate::records::{File, Kind};
use crate::tables::Store;

impl Store<'_> {
    pub fn lowest_free_slot(&self) -> Option<Slot> {
        Slot::all().find(|&slot| self.file(slot).kind == Kind::FREE)
    }

    pub fn lowest_free_open_file(&self) -> Option<OpenFileNumber> {
        OpenFileNumber::all().find(|&number| self.open_file(number).references == 0)
    }

    pub fn lowest_free_process(&self) -> Option<ProcessNumber> {
        ProcessNumber::all().find(|&number| self.process(number).used == 0)
    }

    pub fn lowest_free_descriptor(&self, process: ProcessNumber) -> Option<Descriptor> {
        let words = self.process(process).descriptors;
        Descriptor::all().find(|descriptor| words[descriptor.index()] == 0)
    }

    /// Gives the slot a name in an empty entry of a directory.
    pub fn add_name(&mut self, parent: Slot, dirent: usize, name: &[u8], slot: Slot) {
        let named = directory::dirent(name, slot);
        directory::put(self.block_mut(parent), dirent, named);
        self.change_file(parent, |directory| {
            directory.length += 1;
            directory.raise_version();
        });
        self.change_file(slot, |file| file.links += 1);
    }

    /// Takes the slot's name out of its entry of a directory.
    pub fn remove_name(&mut self, parent: Slot, dirent: usize, slot: Slot) {
        directory::clear(self.block_mut(parent), dirent);
        self.change_file(parent, |directory| {
            directory.length -= 1;
            directory.raise_version();
        });
        self.change_file(slot, |file| file.links -= 1);
    }

    /// Puts another name into an entry of a directory. A name gained and one
    /// lost in one call are one change.
    pub fn change_name(&mut self, parent: Slot, dirent: usize, name: &[u8]) {
        let block = self.block_mut(parent);
        let renamed = directory::dirent(name, directory::slot_at(block, dirent));
        directory::put(block, dirent, renamed);
        self.change_file(parent, File::raise_version);
    }

    pub fn add_reference(&mut self, number: OpenFileNumber) {
        let mut open_file = self.open_file(number);
        open_file.references += 1;
        self.set_open_file(number, open_file);
    }

    /// Drops one reference to an open file, which goes with the last one.
    pub fn drop_reference(&mut self, number: OpenFileNumber) {
        let mut open_file = self.open_file(number);
        open_file.references -= 1;
        if open_file.references > 0 {
            self.set_open_file(number, open_file);
        } else {
            self.clear_open_file(number);
            self.free_if_unreachable(open_file.slot);
        }
    }

    /// Frees a file, no directory, that has neither links nor open files. A
    /// prompt always has its link.
    pub fn free_if_unreachable(&mut self, slot: Slot) {
        if self.file(slot).links == 0 && !self.is_open(slot) {
            self.free(slot);
        }
    }

    fn is_open(&self, slot: Slot) -> bool {
        OpenFileNumber::all()
            .map(|number| self.open_file(number))
            .any(|open_file| open_file.references > 0 && open_file.slot == slot)
    }

    /// Frees a slot.
    pub fn free(&mut self, slot: Slot) {
        *self.block_mut(slot) = [0; BLOCK];
        let mut file = File::free(self.file(slot).version);
        file.raise_version();
        self.set_file(slot, file);
    }

    pub fn change_file(&mut self, slot: Slot, change: impl FnOnce(&mut File)) {
        let mut file = self.file(slot);
        change(&mut file);
        self.set_file(slot, file);
    }
}
