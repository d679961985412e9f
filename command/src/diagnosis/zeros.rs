//! "The zero bytes as above": of free records, slots and processes, past a plain
//! file's length, and in a directory around its names. Those past a link's text are
//! in the clause of links.

use super::names;
use mritvelja::layout::*;
use mritvelja::Tables;

pub fn not_zero(tables: &Tables) -> Option<String> {
    (0..SLOTS)
        .find_map(|slot| match tables.file(slot)[FILE_KIND] {
            FREE => in_free_record(tables, slot).or_else(|| in_free_slot(tables, slot)),
            PLAIN => past_length(tables, slot),
            DIRECTORY => in_directory(tables, slot),
            _ => None,
        })
        .or_else(|| in_free_process(tables))
}

/// The first byte from `start` on that is not 0.
fn first_byte(bytes: &[u8], start: usize) -> Option<usize> {
    (start..bytes.len()).find(|&at| bytes[at] != 0)
}

fn in_free_record(tables: &Tables, slot: usize) -> Option<String> {
    let record = &tables.file(slot)[..FILE_VERSION];
    record
        .iter()
        .any(|&word| word != 0)
        .then(|| format!("slot {slot}: a free record that is not 0 before its version"))
}

fn in_free_slot(tables: &Tables, slot: usize) -> Option<String> {
    let at = first_byte(tables.block(slot), 0)?;
    Some(format!("slot {slot}: a free slot whose byte {at} is not 0"))
}

fn past_length(tables: &Tables, slot: usize) -> Option<String> {
    let length = tables.file(slot)[FILE_LENGTH];
    let at = first_byte(tables.block(slot), length as usize)?;
    Some(format!(
        "slot {slot}: a plain file of length {length} whose byte {at} is not 0"
    ))
}

fn in_directory(tables: &Tables, slot: usize) -> Option<String> {
    (0..DIRENTS)
        .find_map(|entry| in_dirent(tables, slot, entry))
        .or_else(|| {
            let at = first_byte(tables.block(slot), DIRENTS * DIRENT_WIDTH)?;
            Some(format!(
                "slot {slot}: a directory whose byte {at}, past its entries, is not 0"
            ))
        })
}

fn in_dirent(tables: &Tables, directory: usize, entry: usize) -> Option<String> {
    let bytes = tables.dirent(directory, entry);
    let at = names::at(directory, entry);
    if tables.dirent_slot(directory, entry) == 0 {
        first_byte(bytes, 0).map(|_| format!("{at}: an empty one that is not all 0"))
    } else if first_byte(&bytes[..NAME], tables.dirent_name(directory, entry).len()).is_some() {
        Some(format!("{at}: a byte after the name's end is not 0"))
    } else {
        first_byte(bytes, NAME + 1).map(|_| format!("{at}: the byte after its slot is not 0"))
    }
}

fn in_free_process(tables: &Tables) -> Option<String> {
    let is_spoilt = |&process: &usize| {
        tables.process(process)[PROCESS_USED] == 0 && *tables.process(process) != [0; PROCESS_WIDTH]
    };
    let process = (0..PROCESSES).find(is_spoilt)?;
    Some(format!("process {process}: not in use, and not all 0"))
}
