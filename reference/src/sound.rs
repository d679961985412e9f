//! Whether the tables are sound.
//!
//! Nothing here trusts a number before it is known to be in range.

use crate::bits::Bits;
use crate::command::LAST_OFFSET;
use crate::directory::{self, Block, Dirent, BLOCK};
use crate::numbers::{OpenFileNumber, Slot, OPEN_FILES, SLOTS};
use crate::path::{is_name, Path, NAMES};
use crate::records::{File, Kind, OpenFile, Process};
use crate::rights::{OpenMode, Rights};
use crate::rom;
use crate::tables::{Policy, Tables, LABELS, NO_TRANSITION, RIGHTS_SIZE};

const LAST_USER: u32 = 65_535;
const LAST_GROUP: u32 = 65_535;

pub fn is_sound(tables: &Tables) -> bool {
    policy_is_sound(tables.policy)
        && tables.rom.is_sound()
        && processes_are_sound(tables)
        && open_files_are_sound(tables)
        && files_are_sound(tables)
        && rom_is_not_stored(tables)
        && Naming::count(tables).is_some_and(|naming| naming.is_sound(tables))
}

fn policy_is_sound(policy: &Policy) -> bool {
    let (rights, transitions) = policy.split_at(RIGHTS_SIZE);
    rights
        .iter()
        .all(|&rights| Rights::new(rights.into()).is_some())
        && transitions
            .iter()
            .all(|&label| label < LABELS as u8 || label == NO_TRANSITION)
}

fn processes_are_sound(tables: &Tables) -> bool {
    tables.processes.iter().all(|&words| {
        words == Process::FREE_WORDS || process_is_in_range(&Process::from_words(words))
    })
}

fn process_is_in_range(process: &Process) -> bool {
    process.used == 1
        && process.user <= LAST_USER
        && process.group <= LAST_GROUP
        && process.label < LABELS as u32
        && process
            .open_files()
            .all(|open_file| open_file.index() < OPEN_FILES)
}

/// Every open file is free and not held, or of a plain file and held.
/// The processes and ROM must be sound.
fn open_files_are_sound(tables: &Tables) -> bool {
    let held = count_references(tables);
    OpenFileNumber::all().all(|number| {
        let words = tables.open_files[number.index()];
        let references = held[number.index()];
        if references == 0 {
            words == OpenFile::FREE_WORDS
        } else {
            let open_file = OpenFile::from_words(words);
            open_file.references == references && open_file_is_in_range(tables, &open_file)
        }
    })
}

fn count_references(tables: &Tables) -> [u32; OPEN_FILES] {
    let mut held = [0; OPEN_FILES];
    for &words in tables.processes {
        for open_file in Process::from_words(words).open_files() {
            held[open_file.index()] += 1;
        }
    }
    held
}

fn open_file_is_in_range(tables: &Tables, open_file: &OpenFile) -> bool {
    let file_can_be_open = if open_file.slot.is_in_rom() {
        tables.rom.prompt(open_file.slot).is_some() && open_file.mode == OpenMode::READ
    } else {
        stored(tables, open_file.slot).kind == Kind::PLAIN && open_file.mode.in_range()
    };
    file_can_be_open && open_file.offset <= LAST_OFFSET
}

fn files_are_sound(tables: &Tables) -> bool {
    Slot::all().all(|slot| file_is_sound(&stored(tables, slot), &tables.contents[slot.index()]))
}

/// What a record and its bytes must be, links and place in the tree aside.
fn file_is_sound(file: &File, block: &Block) -> bool {
    match file.kind {
        Kind::FREE => *file == File::free(file.version) && is_zero(block),
        Kind::PLAIN => fields_are_in_range(file) && bytes_fit(file, block),
        Kind::DIRECTORY => fields_are_in_range(file) && dirents_are_sound(file, block),
        Kind::SYMLINK => symlink_is_sound(file, block),
        _ => false,
    }
}

fn fields_are_in_range(file: &File) -> bool {
    file.owner <= LAST_USER
        && file.group <= LAST_GROUP
        && file.bits.in_range()
        && file.label < LABELS as u32
}

fn bytes_fit(file: &File, block: &Block) -> bool {
    let length = file.length as usize;
    length <= BLOCK && is_zero(&block[length..])
}

fn symlink_is_sound(file: &File, block: &Block) -> bool {
    fields_are_in_range(file)
        && file.bits == Bits::NONE
        && bytes_fit(file, block)
        && Path::parse(&block[..file.length as usize]).is_some()
}

fn dirents_are_sound(file: &File, block: &Block) -> bool {
    let dirents = directory::dirents(block);
    let named = dirents.iter().filter(|dirent| !directory::is_empty(dirent));
    named.clone().count() == file.length as usize
        && named.clone().all(dirent_is_well_formed)
        && names_differ(dirents)
        && is_zero(directory::rest(block))
}

/// Whether the directory entry is just what giving its name to its slot writes.
fn dirent_is_well_formed(dirent: &Dirent) -> bool {
    let name = directory::name(dirent);
    is_name(name) && *dirent == directory::dirent(name, directory::slot(dirent))
}

fn names_differ(dirents: &[Dirent]) -> bool {
    dirents.iter().enumerate().all(|(index, dirent)| {
        let name = directory::name(dirent);
        name.is_empty()
            || dirents[..index]
                .iter()
                .all(|earlier| directory::name(earlier) != name)
    })
}

/// Whether the root leaves its reserved name free.
fn rom_is_not_stored(tables: &Tables) -> bool {
    directory::find(&tables.contents[Slot::ROOT.index()], rom::NAME).is_none()
}

/// Which directory entries name which slots.
struct Naming {
    links: [u32; SLOTS],
    /// The last directory found to name a slot.
    parent: [Option<Slot>; SLOTS],
}

impl Naming {
    /// Counts all directory entries; each must name a slot in use other than 0.
    fn count(tables: &Tables) -> Option<Naming> {
        let mut naming = Naming {
            links: [0; SLOTS],
            parent: [None; SLOTS],
        };
        for parent in Slot::all() {
            if stored(tables, parent).kind == Kind::DIRECTORY {
                naming.count_dirents(tables, parent)?;
            }
        }
        Some(naming)
    }

    fn count_dirents(&mut self, tables: &Tables, parent: Slot) -> Option<()> {
        for dirent in directory::dirents(&tables.contents[parent.index()]) {
            if !directory::is_empty(dirent) {
                let slot = Slot::new(directory::slot(dirent).0)?;
                if slot == Slot::ROOT || stored(tables, slot).kind == Kind::FREE {
                    return None;
                }
                self.links[slot.index()] += 1;
                self.parent[slot.index()] = Some(parent);
            }
        }
        Some(())
    }

    fn is_sound(&self, tables: &Tables) -> bool {
        stored(tables, Slot::ROOT).kind == Kind::DIRECTORY
            && Slot::all().all(|slot| {
                let file = stored(tables, slot);
                file.links == self.links[slot.index()]
                    && match file.kind {
                        Kind::PLAIN => file.links > 0 || is_open(tables, slot),
                        Kind::DIRECTORY => {
                            slot == Slot::ROOT || file.links == 1 && self.is_reached(slot)
                        }
                        Kind::SYMLINK => file.links == 1,
                        _ => true,
                    }
            })
    }

    /// Whether the root is met going up from a directory, within 8 names.
    fn is_reached(&self, directory: Slot) -> bool {
        let mut at = directory;
        for _ in 0..NAMES {
            match self.parent[at.index()] {
                Some(Slot::ROOT) => return true,
                Some(parent) => at = parent,
                None => return false,
            }
        }
        false
    }
}

fn is_open(tables: &Tables, slot: Slot) -> bool {
    tables
        .open_files
        .iter()
        .any(|&words| words != OpenFile::FREE_WORDS && OpenFile::from_words(words).slot == slot)
}

/// The record of a slot of the store.
fn stored(tables: &Tables, slot: Slot) -> File {
    File::from_words(tables.files[slot.index()])
}

fn is_zero(bytes: &[u8]) -> bool {
    // Without an early exit, so that the loop is done many bytes at a time.
    bytes.iter().fold(0, |all, &byte| all | byte) == 0
}
