//! Sizes, columns and values of the tables, as `include/mritvelja.h` has them.

/// Files; slot 0 is the root directory.
pub const SLOTS: usize = 128;
/// Words of a file's record.
pub const FILE_WIDTH: usize = 8;
/// Bytes of contents for each slot.
pub const BLOCK: usize = 512;
/// Entries in a directory's block.
pub const DIRENTS: usize = 16;
/// Bytes of a directory's entry: the name, the slot, 0.
pub const DIRENT_WIDTH: usize = 16;
/// Bytes of a name, padded with 0.
pub const NAME: usize = 14;
/// Bytes of a path or of a link's text, at most.
pub const PATH: usize = 64;
/// Names in a path, at most.
pub const NAMES: usize = 8;
/// Links that one walk follows, at most.
pub const FOLLOWS: usize = 8;
/// Open files.
pub const OPEN_FILES: usize = 32;
/// Words of an open file.
pub const OPEN_FILE_WIDTH: usize = 4;
/// Processes.
pub const PROCESSES: usize = 8;
/// Words of a process, its descriptors last.
pub const PROCESS_WIDTH: usize = 12;
/// Descriptors of a process.
pub const DESCRIPTORS: usize = 8;
/// Labels, of files and of processes alike.
pub const LABELS: usize = 16;
/// Prompts in the factory part, at most.
pub const PROMPTS: usize = 16;
/// The slot of prompt 0 in an open file; prompt `i` has `i` more.
pub const ROM_FIRST: usize = 128;

/// Words of all files' records.
pub const FILES_SIZE: usize = SLOTS * FILE_WIDTH;
/// Bytes of all contents.
pub const CONTENTS_SIZE: usize = SLOTS * BLOCK;
/// Words of all open files.
pub const OPEN_FILES_SIZE: usize = OPEN_FILES * OPEN_FILE_WIDTH;
/// Words of all processes.
pub const PROCESSES_SIZE: usize = PROCESSES * PROCESS_WIDTH;
/// Cells of rights, process label major, and of transitions, laid out alike.
pub const RIGHTS_SIZE: usize = LABELS * LABELS;
/// Bytes of a policy: the rights, then the transitions.
pub const POLICY_SIZE: usize = 2 * RIGHTS_SIZE;

/// The root directory's slot.
pub const ROOT: usize = 0;
/// The transition that leads nowhere.
pub const NO_TRANSITION: u8 = 255;

// Columns of a file's record, and of stat's fields.

/// [`FREE`], [`PLAIN`], [`DIRECTORY`] or [`LINK`].
pub const FILE_KIND: usize = 0;
/// A user, 0 to 65,535.
pub const FILE_OWNER: usize = 1;
/// A group, 0 to 65,535.
pub const FILE_GROUP: usize = 2;
/// 0 to 511: the rights of the owner times 64, of the group times 8, and of all others; of a link 0.
pub const FILE_BITS: usize = 3;
/// 0 to 15.
pub const FILE_LABEL: usize = 4;
/// Bytes, of a link of its text; of a directory, names in it.
pub const FILE_LENGTH: usize = 5;
/// How many directory entries name the file.
pub const FILE_LINKS: usize = 6;
/// Goes up with each change, and wraps.
pub const FILE_VERSION: usize = 7;

/// The kind of a slot that is not in use.
pub const FREE: u32 = 0;
/// The kind of a plain file.
pub const PLAIN: u32 = 1;
/// The kind of a directory.
pub const DIRECTORY: u32 = 2;
/// The kind of a symbolic link, whose contents are the path that it leads to.
pub const LINK: u32 = 3;

// Columns of an open file. One with no references is free and all 0.

/// The open file's slot, of prompt `i` [`ROM_FIRST`]` + i`.
pub const OPEN_SLOT: usize = 0;
/// How it was opened: one of [`modes`](crate::modes), without truncating.
pub const OPEN_MODE: usize = 1;
/// Where the next read or write begins, 0 to 512.
pub const OPEN_OFFSET: usize = 2;
/// Descriptors that hold it.
pub const OPEN_REFERENCES: usize = 3;

// Columns of a process. One that is not in use is all 0.

/// 1 in use, else 0.
pub const PROCESS_USED: usize = 0;
/// 0 to 65,535.
pub const PROCESS_USER: usize = 1;
/// 0 to 65,535.
pub const PROCESS_GROUP: usize = 2;
/// 0 to 15.
pub const PROCESS_LABEL: usize = 3;
/// Descriptor 0, and after it the others: 0 holds nothing, e + 1 open file e.
pub const PROCESS_DESCRIPTOR: usize = 4;

// Rights, which are added. A file's bits have them three times, an octal digit each, as in 0o644.

/// The right to execute a plain file; of a directory, to search it.
pub const EXECUTE: u32 = 1;
/// The right to write.
pub const WRITE: u32 = 2;
/// The right to read.
pub const READ: u32 = 4;
