//! "The zero bytes as above."

use super::pick::*;
use super::Break;
use crate::chance::Chance;
use mritvelja::layout::*;
use mritvelja::Tables;

const ZERO: &str = "the zero bytes";

pub const DEFECTS: &[(&str, &str, Break)] = &[
    (ZERO, "byte past a plain file's length", past_length),
    (ZERO, "byte in a free slot", in_free),
    (ZERO, "byte in the last 256 of a directory", last_half),
    (ZERO, "byte in a name's padding", in_padding),
    (ZERO, "byte after a directory entry's slot", after_slot),
    (ZERO, "byte in an empty directory entry", in_empty),
];

fn past_length(tables: &mut Tables, chance: &mut Chance) -> Option<()> {
    let slot = chance.pick_where(SLOTS, |slot| {
        tables.is_kind(slot, PLAIN) && tables.file(slot)[FILE_LENGTH] < BLOCK as u32
    })?;
    let length = tables.file(slot)[FILE_LENGTH] as usize;
    spoil(tables.block_mut(slot), length, chance)
}

fn in_free(tables: &mut Tables, chance: &mut Chance) -> Option<()> {
    let slot = slot_of(tables, chance, FREE)?;
    spoil(tables.block_mut(slot), 0, chance)
}

fn last_half(tables: &mut Tables, chance: &mut Chance) -> Option<()> {
    let slot = slot_of(tables, chance, DIRECTORY)?;
    spoil(tables.block_mut(slot), DIRENTS * DIRENT_WIDTH, chance)
}

/// Further than one byte from the name's end: one further is a longer name.
fn in_padding(tables: &mut Tables, chance: &mut Chance) -> Option<()> {
    let (directory, dirent) = dirent(tables, chance, true)?;
    let end = tables.dirent_name(directory, dirent).len();
    let padding = &mut tables.dirent_mut(directory, dirent)[..NAME];
    spoil(padding, end + 1, chance)
}

fn after_slot(tables: &mut Tables, chance: &mut Chance) -> Option<()> {
    let (directory, dirent) = dirent(tables, chance, true)?;
    spoil(tables.dirent_mut(directory, dirent), NAME + 1, chance)
}

/// Not its slot: with one the entry would not be empty.
fn in_empty(tables: &mut Tables, chance: &mut Chance) -> Option<()> {
    let (directory, dirent) = dirent(tables, chance, false)?;
    let at = chance.pick(&[0, 1, 13, 15]);
    tables.dirent_mut(directory, dirent)[at] = 1;
    Some(())
}
