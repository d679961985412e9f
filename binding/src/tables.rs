//! A store in memory, with every field by its name.

use crate::layout::*;

/// The four tables of a store, its policy and the factory part beside it, which calls
/// are lent. They may hold anything and be of any size: what is not a store is refused.
///
/// The methods panic where a table has no such record.
#[derive(Debug, PartialEq, Eq)]
pub struct Tables {
    /// A record for each slot.
    pub files: Vec<u32>,
    /// A block of bytes for each slot.
    pub contents: Vec<u8>,
    /// A record for each open file.
    pub open_files: Vec<u32>,
    /// A record for each process.
    pub processes: Vec<u32>,
    /// The rights, then the transitions.
    pub policy: Vec<u8>,
    /// The factory part: at most [`PROMPTS`] prompts in turn, each a length of two bytes,
    /// little end first, of at most [`BLOCK`], and its bytes. No call changes it.
    pub rom: Vec<u8>,
}

impl Clone for Tables {
    fn clone(&self) -> Tables {
        Tables {
            files: self.files.clone(),
            contents: self.contents.clone(),
            open_files: self.open_files.clone(),
            processes: self.processes.clone(),
            policy: self.policy.clone(),
            rom: self.rom.clone(),
        }
    }

    /// Takes over the other tables without giving up the memory at hand.
    fn clone_from(&mut self, other: &Tables) {
        self.files.clone_from(&other.files);
        self.contents.clone_from(&other.contents);
        self.open_files.clone_from(&other.open_files);
        self.processes.clone_from(&other.processes);
        self.policy.clone_from(&other.policy);
        self.rom.clone_from(&other.rom);
    }
}

impl Tables {
    /// An empty store, which is sound: a root of user 0 and group 0 without bits,
    /// no process, no rights, no transitions, no prompts.
    pub fn empty() -> Tables {
        let mut tables = Tables {
            files: vec![0; FILES_SIZE],
            contents: vec![0; CONTENTS_SIZE],
            open_files: vec![0; OPEN_FILES_SIZE],
            processes: vec![0; PROCESSES_SIZE],
            policy: vec![0; POLICY_SIZE],
            rom: Vec::new(),
        };
        tables.file_mut(ROOT)[FILE_KIND] = DIRECTORY;
        tables.policy[RIGHTS_SIZE..].fill(NO_TRANSITION);
        tables
    }

    /// A slot's record.
    pub fn file(&self, slot: usize) -> &[u32; FILE_WIDTH] {
        &self.files.as_chunks().0[slot]
    }

    /// A slot's record, to be changed.
    pub fn file_mut(&mut self, slot: usize) -> &mut [u32; FILE_WIDTH] {
        &mut self.files.as_chunks_mut().0[slot]
    }

    /// Whether a slot is of a kind.
    pub fn is_kind(&self, slot: usize, kind: u32) -> bool {
        self.file(slot)[FILE_KIND] == kind
    }

    /// The slots that hold a directory, in order.
    pub fn directories(&self) -> impl Iterator<Item = usize> + '_ {
        (0..SLOTS).filter(|&slot| self.is_kind(slot, DIRECTORY))
    }

    /// A slot's contents, past a file's length too.
    pub fn block(&self, slot: usize) -> &[u8; BLOCK] {
        &self.contents.as_chunks().0[slot]
    }

    /// A slot's contents, to be changed.
    pub fn block_mut(&mut self, slot: usize) -> &mut [u8; BLOCK] {
        &mut self.contents.as_chunks_mut().0[slot]
    }

    /// The bytes of a plain file, or the text of a link: its contents up to its length.
    pub fn bytes(&self, slot: usize) -> &[u8] {
        let length = self.file(slot)[FILE_LENGTH] as usize;
        &self.block(slot)[..length.min(BLOCK)]
    }

    /// A directory entry, as it is stored.
    pub fn dirent(&self, directory: usize, entry: usize) -> &[u8; DIRENT_WIDTH] {
        &self.block(directory).as_chunks().0[entry]
    }

    /// A directory entry, to be changed.
    pub fn dirent_mut(&mut self, directory: usize, entry: usize) -> &mut [u8; DIRENT_WIDTH] {
        &mut self.block_mut(directory).as_chunks_mut().0[entry]
    }

    /// The name in a directory entry, without its padding.
    pub fn dirent_name(&self, directory: usize, entry: usize) -> &[u8] {
        let padded = &self.dirent(directory, entry)[..NAME];
        let end = padded.iter().position(|&byte| byte == 0);
        &padded[..end.unwrap_or(NAME)]
    }

    /// The slot that a directory entry names, 0 for an empty one.
    pub fn dirent_slot(&self, directory: usize, entry: usize) -> usize {
        usize::from(self.dirent(directory, entry)[NAME])
    }

    /// Writes a directory entry, and nothing else that goes with a new name. Panics where
    /// the name has more than [`NAME`] bytes or the slot more than one.
    pub fn set_dirent(&mut self, directory: usize, entry: usize, name: &[u8], slot: usize) {
        let dirent = self.dirent_mut(directory, entry);
        dirent.fill(0);
        dirent[..NAME][..name.len()].copy_from_slice(name);
        dirent[NAME] = u8::try_from(slot).expect("a slot is one byte");
    }

    /// The entries of a directory that have a name or a slot.
    pub fn dirents_in_use(&self, directory: usize) -> impl Iterator<Item = usize> + '_ {
        (0..DIRENTS).filter(move |&entry| {
            self.dirent_slot(directory, entry) != 0
                || !self.dirent_name(directory, entry).is_empty()
        })
    }

    /// The plain files without a name, in order.
    pub fn unnamed_files(&self) -> impl Iterator<Item = usize> + '_ {
        (0..SLOTS).filter(|&slot| self.is_kind(slot, PLAIN) && self.file(slot)[FILE_LINKS] == 0)
    }

    /// Whether some open file is a slot's.
    pub fn is_open(&self, slot: usize) -> bool {
        let mut open_files = self.open_files_in_use();
        open_files.any(|open_file| self.open_file(open_file)[OPEN_SLOT] as usize == slot)
    }

    /// An open file's record.
    pub fn open_file(&self, open_file: usize) -> &[u32; OPEN_FILE_WIDTH] {
        &self.open_files.as_chunks().0[open_file]
    }

    /// An open file's record, to be changed.
    pub fn open_file_mut(&mut self, open_file: usize) -> &mut [u32; OPEN_FILE_WIDTH] {
        &mut self.open_files.as_chunks_mut().0[open_file]
    }

    /// The open files that are in use, in order.
    pub fn open_files_in_use(&self) -> impl Iterator<Item = usize> + '_ {
        (0..OPEN_FILES).filter(|&open_file| self.open_file(open_file).iter().any(|&word| word != 0))
    }

    /// A process's record.
    pub fn process(&self, process: usize) -> &[u32; PROCESS_WIDTH] {
        &self.processes.as_chunks().0[process]
    }

    /// A process's record, to be changed.
    pub fn process_mut(&mut self, process: usize) -> &mut [u32; PROCESS_WIDTH] {
        &mut self.processes.as_chunks_mut().0[process]
    }

    /// The processes that are in use, in order.
    pub fn processes_in_use(&self) -> impl Iterator<Item = usize> + '_ {
        (0..PROCESSES).filter(|&process| self.process(process)[PROCESS_USED] != 0)
    }

    /// A process's descriptors: 0 for nothing, `e + 1` for open file `e`.
    pub fn descriptors(&self, process: usize) -> &[u32] {
        &self.process(process)[PROCESS_DESCRIPTOR..]
    }

    /// A process's descriptors, to be changed.
    pub fn descriptors_mut(&mut self, process: usize) -> &mut [u32] {
        &mut self.process_mut(process)[PROCESS_DESCRIPTOR..]
    }

    /// What processes of a label may do with files of a label.
    pub fn rights(&self, process_label: usize, file_label: usize) -> u8 {
        self.policy[LABELS * process_label + file_label]
    }

    /// Says what processes of a label may do with files of a label.
    pub fn set_rights(&mut self, process_label: usize, file_label: usize, rights: u8) {
        self.policy[LABELS * process_label + file_label] = rights;
    }

    /// The label that a process gets by executing, or [`NO_TRANSITION`].
    pub fn transition(&self, process_label: usize, program_label: usize) -> u8 {
        self.policy[RIGHTS_SIZE + LABELS * process_label + program_label]
    }

    /// Says which label a process gets by executing, or [`NO_TRANSITION`].
    pub fn set_transition(&mut self, process_label: usize, program_label: usize, label: u8) {
        self.policy[RIGHTS_SIZE + LABELS * process_label + program_label] = label;
    }
}
