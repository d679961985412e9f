//! The entries of a directory, as they lie in its 512 bytes.

use crate::numbers::Slot;
use crate::path::NAME;

pub const BLOCK: usize = 512;
const DIRENTS: usize = 16;
const DIRENT_WIDTH: usize = 16;
const DIRENTS_END: usize = DIRENTS * DIRENT_WIDTH;
const SLOT_AT: usize = NAME;

/// The bytes of one slot.
pub type Block = [u8; BLOCK];

/// A name padded with 0 to 14 bytes, the slot, then 0; or all 0.
pub type Dirent = [u8; DIRENT_WIDTH];

pub fn dirents(block: &Block) -> &[Dirent] {
    block[..DIRENTS_END].as_chunks().0
}

fn dirents_mut(block: &mut Block) -> &mut [Dirent] {
    block[..DIRENTS_END].as_chunks_mut().0
}

/// The bytes after the last entry.
pub fn rest(block: &Block) -> &[u8] {
    &block[DIRENTS_END..]
}

pub fn is_empty(dirent: &Dirent) -> bool {
    *dirent == [0; DIRENT_WIDTH]
}

/// The name in an entry, without its padding.
pub fn name(dirent: &Dirent) -> &[u8] {
    let padded = &dirent[..NAME];
    let length = padded.iter().position(|&byte| byte == 0);
    &padded[..length.unwrap_or(NAME)]
}

pub fn slot(dirent: &Dirent) -> Slot {
    Slot(u32::from(dirent[SLOT_AT]))
}

/// The entry that gives this name to this slot.
pub fn dirent(name: &[u8], slot: Slot) -> Dirent {
    let mut dirent = [0; DIRENT_WIDTH];
    dirent[..name.len()].copy_from_slice(name);
    dirent[SLOT_AT] = slot.0 as u8;
    dirent
}

/// The number of the entry that holds the name.
pub fn find(block: &Block, name: &[u8]) -> Option<usize> {
    let wanted = dirent(name, Slot::ROOT);
    dirents(block)
        .iter()
        .position(|dirent| dirent[..NAME] == wanted[..NAME])
}

/// The lowest empty entry.
pub fn free_dirent(block: &Block) -> Option<usize> {
    dirents(block).iter().position(is_empty)
}

pub fn slot_at(block: &Block, number: usize) -> Slot {
    slot(&dirents(block)[number])
}

pub fn put(block: &mut Block, number: usize, dirent: Dirent) {
    dirents_mut(block)[number] = dirent;
}

pub fn clear(block: &mut Block, number: usize) {
    dirents_mut(block)[number] = [0; DIRENT_WIDTH];
}

/// The `index`-th name in byte order, from 0, of those in the block and one
/// more that the directory may have beside them.
pub fn name_in_order<'a>(
    block: &'a Block,
    beside: Option<&'a [u8]>,
    index: usize,
) -> Option<&'a [u8]> {
    let dirents = dirents(block).iter().filter(|dirent| !is_empty(dirent));
    let mut names: [&[u8]; DIRENTS + 1] = [&[]; DIRENTS + 1];
    let mut count = 0;
    for name in dirents.map(name).chain(beside) {
        names[count] = name;
        count += 1;
    }
    let names = &mut names[..count];
    names.sort_unstable();
    names.get(index).copied()
}
