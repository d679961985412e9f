//! The lent tables, cut into records, and the plain reading and setting of
//! them.

use crate::directory::Block;
use crate::numbers::{
    Descriptor, OpenFileNumber, ProcessNumber, Slot, OPEN_FILES, PROCESSES, SLOTS,
};
use crate::records::{
    File, OpenFile, Process, FILE_WIDTH, OPEN_FILE_WIDTH, PROCESS_DESCRIPTOR, PROCESS_LABEL,
    PROCESS_WIDTH,
};
use crate::rights::Rights;
use crate::rom::Rom;

pub const LABELS: usize = 16;
pub const RIGHTS_SIZE: usize = LABELS * LABELS;
pub const NO_TRANSITION: u8 = 255;

pub type FileTable = [[u32; FILE_WIDTH]; SLOTS];
pub type ContentsTable = [Block; SLOTS];
pub type OpenFileTable = [[u32; OPEN_FILE_WIDTH]; OPEN_FILES];
pub type ProcessTable = [[u32; PROCESS_WIDTH]; PROCESSES];
pub type Policy = [u8; 2 * RIGHTS_SIZE];

/// The tables and ROM, lent for reading; the files' bytes, in the contents or
/// in ROM, may be lent for longer than the rest.
#[derive(Clone, Copy)]
pub struct Tables<'a, 'bytes> {
    pub files: &'a FileTable,
    pub contents: &'bytes ContentsTable,
    pub open_files: &'a OpenFileTable,
    pub processes: &'a ProcessTable,
    pub policy: &'a Policy,
    pub rom: Rom<'bytes>,
}

impl<'a, 'bytes> Tables<'a, 'bytes> {
    /// The tables, if each has its right size.
    pub fn lend(
        files: &'a [u32],
        contents: &'bytes [u8],
        open_files: &'a [u32],
        processes: &'a [u32],
        policy: &'a [u8],
        rom: &'bytes [u8],
    ) -> Option<Tables<'a, 'bytes>> {
        Some(Tables {
            files: records(files)?,
            contents: records(contents)?,
            open_files: records(open_files)?,
            processes: records(processes)?,
            policy: policy.try_into().ok()?,
            rom: Rom(rom),
        })
    }

    pub fn file(&self, slot: Slot) -> File {
        match self.files.get(slot.index()) {
            Some(&words) => File::from_words(words),
            None => self.rom.file(slot),
        }
    }

    /// The bytes of a plain file, or the text of a symbolic link.
    pub fn bytes(&self, slot: Slot) -> &'bytes [u8] {
        match self.contents.get(slot.index()) {
            Some(block) => &block[..self.file(slot).length as usize],
            None => self.rom.prompt(slot).unwrap_or(&[]),
        }
    }

    pub fn open_file(&self, number: OpenFileNumber) -> OpenFile {
        OpenFile::from_words(self.open_files[number.index()])
    }

    pub fn process(&self, number: ProcessNumber) -> Process {
        Process::from_words(self.processes[number.index()])
    }

    /// The rights of a process label over a file label.
    pub fn label_rights(&self, process_label: u32, file_label: u32) -> Rights {
        Rights(u32::from(self.policy[cell(process_label, file_label)]))
    }
}

/// The tables and ROM, lent for a call.
pub struct Store<'a> {
    files: &'a mut FileTable,
    contents: &'a mut ContentsTable,
    open_files: &'a mut OpenFileTable,
    processes: &'a mut ProcessTable,
    policy: &'a Policy,
    rom: Rom<'a>,
}

impl<'a> Store<'a> {
    /// The store, if each table has its right size.
    pub fn lend(
        files: &'a mut [u32],
        contents: &'a mut [u8],
        open_files: &'a mut [u32],
        processes: &'a mut [u32],
        policy: &'a [u8],
        rom: &'a [u8],
    ) -> Option<Store<'a>> {
        Some(Store {
            files: records_mut(files)?,
            contents: records_mut(contents)?,
            open_files: records_mut(open_files)?,
            processes: records_mut(processes)?,
            policy: policy.try_into().ok()?,
            rom: Rom(rom),
        })
    }

    pub fn tables(&self) -> Tables<'_, '_> {
        Tables {
            files: self.files,
            contents: self.contents,
            open_files: self.open_files,
            processes: self.processes,
            policy: self.policy,
            rom: self.rom,
        }
    }

    pub fn rom(&self) -> Rom<'a> {
        self.rom
    }

    pub fn file(&self, slot: Slot) -> File {
        self.tables().file(slot)
    }

    pub fn set_file(&mut self, slot: Slot, file: File) {
        self.files[slot.index()] = file.words();
    }

    /// The block of a file in the store; those of ROM have none.
    pub fn block(&self, slot: Slot) -> &Block {
        &self.contents[slot.index()]
    }

    pub fn block_mut(&mut self, slot: Slot) -> &mut Block {
        &mut self.contents[slot.index()]
    }

    /// The bytes of a plain file, or the text of a symbolic link.
    pub fn bytes(&self, slot: Slot) -> &[u8] {
        self.tables().bytes(slot)
    }

    pub fn open_file(&self, number: OpenFileNumber) -> OpenFile {
        self.tables().open_file(number)
    }

    pub fn set_open_file(&mut self, number: OpenFileNumber, open_file: OpenFile) {
        self.open_files[number.index()] = open_file.words();
    }

    pub fn clear_open_file(&mut self, number: OpenFileNumber) {
        self.open_files[number.index()] = OpenFile::FREE_WORDS;
    }

    pub fn process(&self, number: ProcessNumber) -> Process {
        self.tables().process(number)
    }

    pub fn copy_process(&mut self, from: ProcessNumber, to: ProcessNumber) {
        self.processes[to.index()] = self.processes[from.index()];
    }

    pub fn clear_process(&mut self, number: ProcessNumber) {
        self.processes[number.index()] = Process::FREE_WORDS;
    }

    pub fn set_process_label(&mut self, number: ProcessNumber, label: u32) {
        self.processes[number.index()][PROCESS_LABEL] = label;
    }

    pub fn set_descriptor(
        &mut self,
        process: ProcessNumber,
        descriptor: Descriptor,
        held: Option<OpenFileNumber>,
    ) {
        let column = PROCESS_DESCRIPTOR + descriptor.index();
        self.processes[process.index()][column] = OpenFileNumber::to_word(held);
    }

    /// The label to which a program's label moves a process's.
    pub fn transition(&self, label: u32, program_label: u32) -> Option<u32> {
        match self.policy[RIGHTS_SIZE + cell(label, program_label)] {
            NO_TRANSITION => None,
            next => Some(u32::from(next)),
        }
    }
}

fn cell(process_label: u32, file_label: u32) -> usize {
    LABELS * process_label as usize + file_label as usize
}

/// A flat table cut into `COUNT` records of `SIZE`, if it has just that size.
fn records<T, const SIZE: usize, const COUNT: usize>(flat: &[T]) -> Option<&[[T; SIZE]; COUNT]> {
    match flat.as_chunks() {
        (records, []) => records.try_into().ok(),
        _ => None,
    }
}

fn records_mut<T, const SIZE: usize, const COUNT: usize>(
    flat: &mut [T],
) -> Option<&mut [[T; SIZE]; COUNT]> {
    match flat.as_chunks_mut() {
        (records, []) => records.try_into().ok(),
        _ => None,
    }
}
