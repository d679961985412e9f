//! Parts of a store by chance, where it has such a part.

use crate::building::{add_name, add_to_file, has_name};
use crate::chance::Chance;
use mritvelja::layout::*;
use mritvelja::Tables;

pub fn slot_of(tables: &Tables, chance: &mut Chance, kind: u32) -> Option<usize> {
    chance.pick_where(SLOTS, |slot| tables.is_kind(slot, kind))
}

/// A directory other than the root.
pub fn subdirectory(tables: &Tables, chance: &mut Chance) -> Option<usize> {
    chance.pick_where(SLOTS, |slot| slot > 0 && tables.is_kind(slot, DIRECTORY))
}

pub fn slot_in_use(tables: &Tables, chance: &mut Chance) -> Option<usize> {
    chance.pick_where(SLOTS, |slot| !tables.is_kind(slot, FREE))
}

/// An entry of a directory that names something, or one that is empty.
pub fn dirent(tables: &Tables, chance: &mut Chance, used: bool) -> Option<(usize, usize)> {
    let holds = |slot: usize, dirent: usize| (tables.dirent_slot(slot, dirent) != 0) == used;
    let fit = |slot: usize| {
        tables.is_kind(slot, DIRECTORY) && (0..DIRENTS).any(|dirent| holds(slot, dirent))
    };
    let directory = chance.pick_where(SLOTS, fit)?;
    let dirent = chance.pick_where(DIRENTS, |dirent| holds(directory, dirent))?;
    Some((directory, dirent))
}

/// A name that the directory does not have.
pub fn fresh_name(tables: &Tables, directory: usize) -> Vec<u8> {
    (0..)
        .map(|number: u32| format!("new{number}").into_bytes())
        .find(|name| !has_name(tables, directory, name))
        .unwrap_or_default()
}

pub fn open_file(tables: &Tables, chance: &mut Chance, used: bool) -> Option<usize> {
    chance.pick_where(OPEN_FILES, |open_file| {
        (tables.open_file(open_file)[OPEN_REFERENCES] > 0) == used
    })
}

pub fn process(tables: &Tables, chance: &mut Chance, used: bool) -> Option<usize> {
    chance.pick_where(PROCESSES, |process| {
        (tables.process(process)[PROCESS_USED] == 1) == used
    })
}

/// A descriptor of a process in use that holds nothing.
pub fn free_descriptor(tables: &Tables, chance: &mut Chance) -> Option<(usize, usize)> {
    let free = |process: usize, descriptor: usize| tables.descriptors(process)[descriptor] == 0;
    let fit = |process: usize| {
        tables.process(process)[PROCESS_USED] == 1
            && (0..DESCRIPTORS).any(|descriptor| free(process, descriptor))
    };
    let process = chance.pick_where(PROCESSES, fit)?;
    let descriptor = chance.pick_where(DESCRIPTORS, |descriptor| free(process, descriptor))?;
    Some((process, descriptor))
}

/// One name more for a slot, counts right.
pub fn name_again(tables: &mut Tables, chance: &mut Chance, slot: usize) -> Option<()> {
    let (directory, dirent) = dirent(tables, chance, false)?;
    let name = fresh_name(tables, directory);
    add_name(tables, directory, dirent, &name, slot);
    Some(())
}

/// A new name for any number, the directory's length right.
pub fn name_number(tables: &mut Tables, chance: &mut Chance, number: usize) -> Option<()> {
    let (directory, dirent) = dirent(tables, chance, false)?;
    let name = fresh_name(tables, directory);
    tables.set_dirent(directory, dirent, &name, number);
    add_to_file(tables, directory, FILE_LENGTH, 1);
    Some(())
}

/// Adds one of the changes to a word of a file of this kind.
pub fn miscount(
    tables: &mut Tables,
    chance: &mut Chance,
    (kind, column): (u32, usize),
    changes: &[i32],
) -> Option<()> {
    let slot = slot_of(tables, chance, kind)?;
    let change = chance.pick(changes);
    add_to_file(tables, slot, column, change);
    Some(())
}

/// Gives a file of this kind a length over a block's.
pub fn lengthen(tables: &mut Tables, chance: &mut Chance, kind: u32) -> Option<()> {
    let slot = slot_of(tables, chance, kind)?;
    tables.file_mut(slot)[FILE_LENGTH] = over(chance, BLOCK as u32);
    Some(())
}

/// Opens a slot in an open file and descriptor that are free, counts right.
pub fn open_by_someone(tables: &mut Tables, chance: &mut Chance, slot: usize) -> Option<usize> {
    let open_file = open_file(tables, chance, false)?;
    let (process, descriptor) = free_descriptor(tables, chance)?;
    tables.descriptors_mut(process)[descriptor] = open_file as u32 + 1;
    tables.open_file_mut(open_file)[OPEN_SLOT] = slot as u32;
    tables.open_file_mut(open_file)[OPEN_MODE] = 1;
    tables.open_file_mut(open_file)[OPEN_REFERENCES] = 1;
    Some(open_file)
}

/// A word over the limit: just over it, far over it, or wrapping in 8 or 16 bits.
pub fn over(chance: &mut Chance, limit: u32) -> u32 {
    let any = chance.word() as u32;
    chance.pick(&[
        limit + 1,
        limit + 2,
        limit + 256,
        limit + 65_536,
        u32::MAX,
        any.max(limit + 1),
    ])
}

/// Sets one of the bytes from `start` on to something else than 0.
pub fn spoil(bytes: &mut [u8], start: usize, chance: &mut Chance) -> Option<()> {
    let last = bytes.len().checked_sub(1).filter(|&last| start <= last)?;
    let within = chance.between(start, last);
    let at = chance.pick(&[start, last, within]);
    bytes[at] = chance.pick(&[1, 47, 128, 255]);
    Some(())
}
