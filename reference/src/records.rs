//! The records of the tables, read from words and written back.
//!
//! Every word is taken as it stands: the soundness test judges the ranges.

use crate::bits::Bits;
use crate::numbers::{OpenFileNumber, Slot, DESCRIPTORS};
use crate::rights::OpenMode;

pub const FILE_WIDTH: usize = 8;
pub const OPEN_FILE_WIDTH: usize = 4;
pub const PROCESS_WIDTH: usize = PROCESS_DESCRIPTOR + DESCRIPTORS;

/// The column of a process's label.
pub const PROCESS_LABEL: usize = 3;
/// The first column of a process's descriptors.
pub const PROCESS_DESCRIPTOR: usize = 4;

#[derive(Clone, Copy, Debug, PartialEq, Eq)]
pub struct Kind(u32);

impl Kind {
    pub const FREE: Kind = Kind(0);
    pub const PLAIN: Kind = Kind(1);
    pub const DIRECTORY: Kind = Kind(2);
    /// A symbolic link: its bytes are a path.
    pub const SYMLINK: Kind = Kind(3);
}

#[derive(Clone, Copy, Debug, PartialEq, Eq)]
pub struct File {
    pub kind: Kind,
    pub owner: u32,
    pub group: u32,
    pub bits: Bits,
    pub label: u32,
    pub length: u32,
    pub links: u32,
    pub version: u32,
}

impl File {
    /// A free record: zero but for its version.
    pub fn free(version: u32) -> File {
        File {
            kind: Kind::FREE,
            owner: 0,
            group: 0,
            bits: Bits::NONE,
            label: 0,
            length: 0,
            links: 0,
            version,
        }
    }

    pub fn from_words(words: [u32; FILE_WIDTH]) -> File {
        let [kind, owner, group, bits, label, length, links, version] = words;
        File {
            kind: Kind(kind),
            owner,
            group,
            bits: Bits(bits),
            label,
            length,
            links,
            version,
        }
    }

    pub fn words(&self) -> [u32; FILE_WIDTH] {
        [
            self.kind.0,
            self.owner,
            self.group,
            self.bits.0,
            self.label,
            self.length,
            self.links,
            self.version,
        ]
    }

    pub fn raise_version(&mut self) {
        self.version = self.version.wrapping_add(1);
    }
}

#[derive(Clone, Copy, Debug, PartialEq, Eq)]
pub struct OpenFile {
    pub slot: Slot,
    pub mode: OpenMode,
    pub offset: u32,
    pub references: u32,
}

impl OpenFile {
    pub const FREE_WORDS: [u32; OPEN_FILE_WIDTH] = [0; OPEN_FILE_WIDTH];

    pub fn from_words(words: [u32; OPEN_FILE_WIDTH]) -> OpenFile {
        let [slot, mode, offset, references] = words;
        OpenFile {
            slot: Slot(slot),
            mode: OpenMode(mode),
            offset,
            references,
        }
    }

    pub fn words(&self) -> [u32; OPEN_FILE_WIDTH] {
        [self.slot.0, self.mode.0, self.offset, self.references]
    }
}

#[derive(Clone, Copy, Debug, PartialEq, Eq)]
pub struct Process {
    pub used: u32,
    pub user: u32,
    pub group: u32,
    pub label: u32,
    pub descriptors: [u32; DESCRIPTORS],
}

impl Process {
    pub const FREE_WORDS: [u32; PROCESS_WIDTH] = [0; PROCESS_WIDTH];

    pub fn from_words(words: [u32; PROCESS_WIDTH]) -> Process {
        let [used, user, group, label, descriptors @ ..] = words;
        Process {
            used,
            user,
            group,
            label,
            descriptors,
        }
    }

    /// The open files that the descriptors hold, in the order of descriptors.
    pub fn open_files(&self) -> impl Iterator<Item = OpenFileNumber> + '_ {
        self.descriptors
            .iter()
            .filter_map(|&word| OpenFileNumber::from_word(word))
    }
}
