//! The files as calls see them: the store's own, and /rom with the prompts of the factory part,
//! which go by numbers past those of the slots.

use crate::rom;
use mritvelja::layout::*;
use mritvelja::Tables;

/// The number of /rom, past those of the prompts. It stands in no table, and nobody is shown it.
pub const ROM: usize = ROM_FIRST + PROMPTS;

/// The prompts of a sound part.
fn prompts(tables: &Tables) -> Vec<&[u8]> {
    rom::prompts(&tables.rom).unwrap_or_default()
}

/// A file's record, as stat gives it.
pub fn record(tables: &Tables, slot: usize) -> [u32; FILE_WIDTH] {
    let of_rom = |kind, bits, length: usize| [kind, 0, 0, bits, 0, length as u32, 1, 0];
    match slot {
        ROM => of_rom(DIRECTORY, 0o555, prompts(tables).len()),
        ROM_FIRST.. => of_rom(PLAIN, 0o444, bytes(tables, slot).len()),
        _ => *tables.file(slot),
    }
}

pub fn is_kind(tables: &Tables, slot: usize, kind: u32) -> bool {
    record(tables, slot)[FILE_KIND] == kind
}

/// The bytes of a plain file, or the text of a link.
pub fn bytes(tables: &Tables, slot: usize) -> &[u8] {
    match slot.checked_sub(ROM_FIRST) {
        Some(prompt) => prompts(tables).get(prompt).copied().unwrap_or_default(),
        None => tables.bytes(slot),
    }
}

/// What a directory names, in byte order.
pub fn names(tables: &Tables, directory: usize) -> Vec<(Vec<u8>, usize)> {
    let mut names: Vec<(Vec<u8>, usize)> = match directory {
        ROM => (0..prompts(tables).len())
            .map(|prompt| (format!("{prompt:02}").into(), ROM_FIRST + prompt))
            .collect(),
        _ => tables
            .dirents_in_use(directory)
            .map(|entry| {
                let name = tables.dirent_name(directory, entry);
                (name.to_vec(), tables.dirent_slot(directory, entry))
            })
            .collect(),
    };
    if directory == ROOT {
        names.push((rom::NAME.to_vec(), ROM));
    }
    names.sort();
    names
}
