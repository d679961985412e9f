//! Who is calling, and what the caller may do with a file.

use crate::numbers::{Descriptor, OpenFileNumber, ProcessNumber, Slot};
use crate::records::{File, OpenFile};
use crate::refusal::Refusal;
use crate::rights::Rights;
use crate::tables::{Store, Tables};

const SUPERUSER: u32 = 0;

/// The process that makes a call.
#[derive(Clone, Copy, Debug)]
pub struct Caller {
    pub process: ProcessNumber,
    pub user: u32,
    pub group: u32,
    pub label: u32,
}

impl Caller {
    /// Whether the caller owns the file or is user 0.
    pub fn is_master_of(self, file: &File) -> bool {
        self.is_superuser() || self.user == file.owner
    }

    fn is_superuser(self) -> bool {
        self.user == SUPERUSER
    }

    /// The rights that the bits give to one who does not pass them. The first
    /// class that fits decides alone, also where a later one would give more.
    fn rights_by_bits(self, file: &File) -> Rights {
        if self.user == file.owner {
            file.bits.owner()
        } else if self.group == file.group {
            file.bits.group()
        } else {
            file.bits.others()
        }
    }
}

impl Tables<'_, '_> {
    /// The calling process, if it is in use.
    pub fn caller(&self, number: u8) -> Option<Caller> {
        let number = ProcessNumber::new(number)?;
        let process = self.process(number);
        (process.used != 0).then_some(Caller {
            process: number,
            user: process.user,
            group: process.group,
            label: process.label,
        })
    }

    /// The descriptor of this number and the open file that it holds.
    pub fn held(
        &self,
        caller: Caller,
        number: u8,
    ) -> Result<(Descriptor, OpenFileNumber), Refusal> {
        let descriptor = Descriptor::new(number).ok_or(Refusal::NotHeld)?;
        let words = self.process(caller.process).descriptors;
        let open_file =
            OpenFileNumber::from_word(words[descriptor.index()]).ok_or(Refusal::NotHeld)?;
        Ok((descriptor, open_file))
    }

    /// Refuses the wanted rights by the labels alone.
    pub fn check_label(&self, caller: Caller, file: &File, wanted: Rights) -> Result<(), Refusal> {
        if self.label_rights(caller.label, file.label).hold(wanted) {
            Ok(())
        } else {
            Err(Refusal::LabelForbids)
        }
    }

    /// Refuses the wanted rights over what is open, by the label that the
    /// caller has now: it may have moved since the file was opened. The
    /// bits were asked then and are not asked again.
    pub fn check_still_allowed(
        &self,
        caller: Caller,
        open_file: &OpenFile,
        wanted: Rights,
    ) -> Result<(), Refusal> {
        self.check_label(caller, &self.file(open_file.slot), wanted)
    }
}

impl Store<'_> {
    /// Refuses the wanted rights by the bits, then by the labels. User 0 passes
    /// the bits of the store's files and not those of ROM's, in whose bits
    /// nobody has the right to write.
    pub fn check_rights(&self, caller: Caller, slot: Slot, wanted: Rights) -> Result<(), Refusal> {
        let file = self.file(slot);
        let passes = caller.is_superuser() && !slot.is_in_rom();
        if !passes && !caller.rights_by_bits(&file).hold(wanted) {
            return Err(Refusal::BitsForbid);
        }
        self.tables().check_label(caller, &file, wanted)
    }

    /// Refuses to execute a file. Searching a directory is not executing it:
    /// only here user 0 needs the right to be in the bits, whosever it is.
    pub fn check_execute(&self, caller: Caller, slot: Slot) -> Result<(), Refusal> {
        if !self.file(slot).bits.hold_for_anyone(Rights::EXECUTE) {
            return Err(Refusal::BitsForbid);
        }
        self.check_rights(caller, slot, Rights::EXECUTE)
    }
}
