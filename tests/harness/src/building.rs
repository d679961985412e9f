//! Tables built by hand: an empty store, and names and texts with the counts that go with them.

use crate::rom;
use mritvelja::layout::*;
use mritvelja::Tables;

/// An empty store whose root everyone may read and search.
pub fn blank() -> Tables {
    let mut tables = Tables::empty();
    tables.file_mut(ROOT)[FILE_BITS] = 0o555;
    tables
}

/// Changes a word of a file's record.
pub fn add_to_file(tables: &mut Tables, slot: usize, column: usize, change: i32) {
    let word = &mut tables.file_mut(slot)[column];
    *word = word.wrapping_add_signed(change);
}

/// Gives a slot one more name, both counts included.
pub fn add_name(tables: &mut Tables, directory: usize, dirent: usize, name: &[u8], slot: usize) {
    tables.set_dirent(directory, dirent, name, slot);
    add_to_file(tables, directory, FILE_LENGTH, 1);
    add_to_file(tables, slot, FILE_LINKS, 1);
}

/// Gives a symbolic link another text, with the length that goes with it.
pub fn set_text(tables: &mut Tables, slot: usize, text: &[u8]) {
    tables.file_mut(slot)[FILE_LENGTH] = text.len() as u32;
    tables.block_mut(slot).fill(0);
    tables.block_mut(slot)[..text.len()].copy_from_slice(text);
}

/// Whether no other file can have the name there.
pub fn has_name(tables: &Tables, directory: usize, name: &[u8]) -> bool {
    rom::shown(tables, directory).any(|(shown, _)| shown == name)
        || (rom::is_stored(directory)
            && (0..DIRENTS).any(|dirent| tables.dirent_name(directory, dirent) == name))
}
