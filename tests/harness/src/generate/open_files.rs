//! Open files for a store by chance: shared ones, ones without a name, and prompts.

use super::shape::Shape;
use crate::chance::Chance;
use crate::rom;
use mritvelja::layout::*;
use mritvelja::Tables;

/// Makes open files, held by any descriptors; takes free slots for those
/// without a name.
pub fn add_open_files(
    chance: &mut Chance,
    shape: &Shape,
    tables: &mut Tables,
    mut free_slots: Vec<usize>,
) {
    let mut descriptors = free_descriptors(tables);
    if !shape.packed {
        chance.shuffle(&mut descriptors);
    }
    let mut open_files: Vec<usize> = (0..OPEN_FILES).collect();
    if chance.percent(70) {
        chance.shuffle(&mut open_files);
    }
    for (count, &open_file) in open_files[..shape.open_files].iter().enumerate() {
        let to_come = shape.open_files - count - 1;
        let Some(sharers) = sharers(chance, descriptors.len(), to_come) else {
            return;
        };
        let unnamed = (count < shape.unnamed).then(|| free_slots.pop()).flatten();
        let Some(slot) = unnamed
            .map(|slot| make_unnamed(chance, tables, slot))
            .or_else(|| prompt(chance, shape))
            .or_else(|| chance.pick_where(SLOTS, |slot| tables.is_kind(slot, PLAIN)))
        else {
            continue;
        };
        open(chance, tables, open_file, slot, sharers);
        for (process, descriptor) in descriptors.drain(..sharers) {
            tables.descriptors_mut(process)[descriptor] = open_file as u32 + 1;
        }
    }
}

/// How many descriptors are to hold an open file: often one, and never so many
/// that none is left for one to come.
fn sharers(chance: &mut Chance, free: usize, to_come: usize) -> Option<usize> {
    let spare = free.checked_sub(1)?.saturating_sub(to_come);
    if spare > 0 && chance.one_in(3) {
        Some(1 + chance.between(1, spare.min(4)))
    } else {
        Some(1)
    }
}

/// All descriptors of the processes in use.
fn free_descriptors(tables: &Tables) -> Vec<(usize, usize)> {
    (0..PROCESSES)
        .filter(|&process| tables.process(process)[PROCESS_USED] == 1)
        .flat_map(|process| (0..DESCRIPTORS).map(move |descriptor| (process, descriptor)))
        .collect()
}

/// A plain file that only its open files keep.
fn make_unnamed(chance: &mut Chance, tables: &mut Tables, slot: usize) -> usize {
    let length = chance.below(BLOCK + 1);
    let version = tables.file(slot)[FILE_VERSION];
    let label = chance.below(LABELS) as u32;
    let (group, bits) = (chance.below(3) as u32, chance.below(512) as u32);
    *tables.file_mut(slot) = [PLAIN, 10, group, bits, label, length as u32, 0, version];
    let bytes = chance.bytes(length);
    tables.block_mut(slot)[..length].copy_from_slice(&bytes);
    slot
}

/// Now and then a prompt, where there are any.
fn prompt(chance: &mut Chance, shape: &Shape) -> Option<usize> {
    let count = shape.prompts.filter(|&count| count > 0)?;
    chance.one_in(4).then(|| ROM_FIRST + chance.below(count))
}

fn open(chance: &mut Chance, tables: &mut Tables, open_file: usize, slot: usize, sharers: usize) {
    let length = rom::file(tables, slot)[FILE_LENGTH];
    let offset = match chance.below(6) {
        0 => length,
        1 => BLOCK as u32,
        2 => chance.below(BLOCK + 1) as u32,
        3 => chance.below(length as usize + 1) as u32,
        _ => 0,
    };
    tables.open_file_mut(open_file)[OPEN_SLOT] = slot as u32;
    tables.open_file_mut(open_file)[OPEN_MODE] = match rom::is_stored(slot) {
        true => chance.pick(&[1, 2, 3, 3, 4]),
        false => 1,
    };
    tables.open_file_mut(open_file)[OPEN_OFFSET] = offset;
    tables.open_file_mut(open_file)[OPEN_REFERENCES] = sharers as u32;
}
