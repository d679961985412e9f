//! The clauses of the directory entries: their names, their slots, their number.

use crate::text;
use mritvelja::layout::*;
use mritvelja::Tables;

/// Every directory entry that has a name or a slot, with its directory.
fn all_dirents(tables: &Tables) -> impl Iterator<Item = (usize, usize)> + '_ {
    tables.directories().flat_map(|directory| {
        tables
            .dirents_in_use(directory)
            .map(move |entry| (directory, entry))
    })
}

/// The directory entries that name a slot other than the root, with their directories.
pub fn dirents_of(tables: &Tables, slot: usize) -> impl Iterator<Item = (usize, usize)> + '_ {
    all_dirents(tables)
        .filter(move |&(directory, entry)| tables.dirent_slot(directory, entry) == slot)
}

/// Where a directory entry is, for a message.
pub fn at(directory: usize, entry: usize) -> String {
    format!("directory in slot {directory}, entry {entry}")
}

pub fn not_valid_or_not_different(tables: &Tables) -> Option<String> {
    all_dirents(tables).find_map(|(directory, entry)| {
        let name = tables.dirent_name(directory, entry);
        let why = invalid(name).map(String::from).or_else(|| {
            let earlier = tables
                .dirents_in_use(directory)
                .find(|&other| tables.dirent_name(directory, other) == name)
                .filter(|&other| other != entry)?;
            Some(format!("entry {earlier} has it too"))
        })?;
        let (at, name) = (at(directory, entry), text::readable(name));
        Some(format!("{at}, name \"{name}\": {why}"))
    })
}

fn invalid(name: &[u8]) -> Option<&'static str> {
    match name {
        [] => Some("it has no bytes"),
        b"." | b".." => Some("it is no name"),
        _ if name.contains(&b'/') => Some("it has a slash"),
        _ => None,
    }
}

pub fn of_no_slot_in_use(tables: &Tables) -> Option<String> {
    all_dirents(tables).find_map(|(directory, entry)| {
        let slot = tables.dirent_slot(directory, entry);
        let why = match slot {
            ROOT => "the root",
            _ if slot >= SLOTS => "of which there is none",
            _ if tables.is_kind(slot, FREE) => "which is free",
            _ => return None,
        };
        Some(format!(
            "{}: it names slot {slot}, {why}",
            at(directory, entry)
        ))
    })
}

pub fn not_as_counted(tables: &Tables) -> Option<String> {
    (0..SLOTS).filter(|&slot| slot != ROOT).find_map(|slot| {
        let links = tables.file(slot)[FILE_LINKS];
        let entries = dirents_of(tables, slot).count();
        (links as usize != entries).then(|| {
            format!(
                "slot {slot}: links is {links}, but the directory entries counted are {entries}"
            )
        })
    })
}
