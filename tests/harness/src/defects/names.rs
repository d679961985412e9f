//! The clauses on the root, directories, names and links.

use super::pick::*;
use super::Break;
use crate::building::{add_name, add_to_file, blank};
use crate::chance::Chance;
use crate::rom::ROM;
use crate::tree;
use mritvelja::layout::*;
use mritvelja::Tables;

const ROOT: &str = "root a directory with no name";
const ONCE: &str = "every other directory named exactly once";
const DEEP: &str = "at most 8 names deep";
const REACHED: &str = "every directory reached from the root";
const VALID: &str = "names valid";
const DIFFERENT: &str = "names different within a directory";
const IN_USE: &str = "each place naming a slot in use other than 0";
const COUNTED: &str = "names equal to the places counted";
const LENGTHS: &str = "lengths";

pub const DEFECTS: &[(&str, &str, Break)] = &[
    (ROOT, "root plain and open", root_plain),
    (ROOT, "root free", root_free),
    (ROOT, "root with links", root_named),
    (ONCE, "directory named twice", named_twice),
    (ONCE, "directory not named", not_named),
    (DEEP, "directory 9 names deep", nine_deep),
    (REACHED, "directory that names itself", names_itself),
    (
        REACHED,
        "directories that name each other",
        names_each_other,
    ),
    (VALID, "name of dots", dots),
    (VALID, "slash in a name", slash),
    (VALID, "slot with no name", no_name),
    (VALID, "byte after a name's end", byte_after_end),
    (DIFFERENT, "one name twice", same_name),
    (IN_USE, "directory entry names a free slot", names_free),
    (
        IN_USE,
        "directory entry names a slot past the last",
        names_outside,
    ),
    (IN_USE, "directory entry names slot 0", names_root),
    (COUNTED, "links too high", links_high),
    (COUNTED, "links too low", links_low),
    (LENGTHS, "plain file over 512 bytes", plain_length),
    (LENGTHS, "directory's length wrong", directory_length),
];

/// On a store with nothing else in it; open, so that nothing but the kind is wrong.
fn root_plain(tables: &mut Tables, chance: &mut Chance) -> Option<()> {
    let policy = std::mem::take(&mut tables.policy);
    *tables = Tables { policy, ..blank() };
    tables.file_mut(0)[FILE_KIND] = PLAIN;
    tables.process_mut(chance.below(PROCESSES))[PROCESS_USED] = 1;
    open_by_someone(tables, chance, 0)?;
    Some(())
}

fn root_free(tables: &mut Tables, _: &mut Chance) -> Option<()> {
    let policy = std::mem::take(&mut tables.policy);
    *tables = Tables { policy, ..blank() };
    *tables.file_mut(0) = [0; FILE_WIDTH];
    Some(())
}

fn root_named(tables: &mut Tables, _: &mut Chance) -> Option<()> {
    tables.file_mut(0)[FILE_LINKS] = 1;
    Some(())
}

fn named_twice(tables: &mut Tables, chance: &mut Chance) -> Option<()> {
    let slot = subdirectory(tables, chance)?;
    name_again(tables, chance, slot)
}

fn not_named(tables: &mut Tables, chance: &mut Chance) -> Option<()> {
    let slot = slot_of(tables, chance, FREE)?;
    tables.file_mut(slot)[FILE_KIND] = DIRECTORY;
    Some(())
}

fn nine_deep(tables: &mut Tables, chance: &mut Chance) -> Option<()> {
    let nodes = tree::stored_nodes(tables);
    let directories = nodes
        .iter()
        .filter(|node| tables.is_kind(node.slot, DIRECTORY));
    let roomy = directories.filter(|node| tables.file(node.slot)[FILE_LENGTH] < DIRENTS as u32);
    let deepest = roomy.max_by_key(|node| node.depth)?;
    let (mut parent, mut depth) = (deepest.slot, deepest.depth);
    while depth <= NAMES {
        let slot = slot_of(tables, chance, FREE)?;
        let empty = |dirent| tables.dirent_slot(parent, dirent) == 0;
        let dirent = chance.pick_where(DIRENTS, empty)?;
        let name = fresh_name(tables, parent);
        tables.file_mut(slot)[FILE_KIND] = DIRECTORY;
        add_name(tables, parent, dirent, &name, slot);
        (parent, depth) = (slot, depth + 1);
    }
    Some(())
}

fn names_itself(tables: &mut Tables, chance: &mut Chance) -> Option<()> {
    let slot = slot_of(tables, chance, FREE)?;
    tables.file_mut(slot)[FILE_KIND] = DIRECTORY;
    add_name(tables, slot, chance.below(DIRENTS), b"me", slot);
    Some(())
}

fn names_each_other(tables: &mut Tables, chance: &mut Chance) -> Option<()> {
    let one = slot_of(tables, chance, FREE)?;
    tables.file_mut(one)[FILE_KIND] = DIRECTORY;
    let other = slot_of(tables, chance, FREE)?;
    tables.file_mut(other)[FILE_KIND] = DIRECTORY;
    add_name(tables, one, chance.below(DIRENTS), b"you", other);
    add_name(tables, other, chance.below(DIRENTS), b"you", one);
    Some(())
}

/// Another name for what a directory entry names, the counts staying right.
fn rename(tables: &mut Tables, chance: &mut Chance, name: &[u8]) -> Option<()> {
    let (directory, dirent) = dirent(tables, chance, true)?;
    let slot = tables.dirent_slot(directory, dirent);
    tables.set_dirent(directory, dirent, name, slot);
    Some(())
}

fn dots(tables: &mut Tables, chance: &mut Chance) -> Option<()> {
    let name: &[u8] = chance.pick(&[b".".as_slice(), b".."]);
    rename(tables, chance, name)
}

fn slash(tables: &mut Tables, chance: &mut Chance) -> Option<()> {
    let mut name = vec![b'q'; chance.between(1, NAME)];
    let at = chance.below(name.len());
    name[at] = b'/';
    rename(tables, chance, &name)
}

fn no_name(tables: &mut Tables, chance: &mut Chance) -> Option<()> {
    rename(tables, chance, b"")
}

fn byte_after_end(tables: &mut Tables, chance: &mut Chance) -> Option<()> {
    let mut name = vec![b'q'; chance.between(3, NAME)];
    let end = chance.below(name.len() - 1);
    name[end] = 0;
    rename(tables, chance, &name)
}

fn same_name(tables: &mut Tables, chance: &mut Chance) -> Option<()> {
    let two_names = |slot| tables.is_kind(slot, DIRECTORY) && tables.file(slot)[FILE_LENGTH] > 1;
    let directory = chance.pick_where(SLOTS, two_names)?;
    let named = |dirent| tables.dirent_slot(directory, dirent) != 0;
    let one = chance.pick_where(DIRENTS, named)?;
    let other = chance.pick_where(DIRENTS, |dirent| dirent != one && named(dirent))?;
    let name = tables.dirent_name(directory, one).to_vec();
    let slot = tables.dirent_slot(directory, other);
    tables.set_dirent(directory, other, &name, slot);
    Some(())
}

fn names_free(tables: &mut Tables, chance: &mut Chance) -> Option<()> {
    let slot = slot_of(tables, chance, FREE)?;
    name_number(tables, chance, slot)
}

fn names_outside(tables: &mut Tables, chance: &mut Chance) -> Option<()> {
    let number = chance.pick(&[ROM + 1, 200, 254, 255]);
    name_number(tables, chance, number)
}

/// Both counts right: a root named once, in a directory that has one name more.
fn names_root(tables: &mut Tables, chance: &mut Chance) -> Option<()> {
    name_number(tables, chance, 0)?;
    if chance.one_in(2) {
        tables.file_mut(0)[FILE_LINKS] = 1;
    }
    Some(())
}

fn links_high(tables: &mut Tables, chance: &mut Chance) -> Option<()> {
    miscount(tables, chance, (PLAIN, FILE_LINKS), &[1, 2, 256, 65_536])
}

/// Of a file with at least two names, so that it still has one.
fn links_low(tables: &mut Tables, chance: &mut Chance) -> Option<()> {
    let slot = chance.pick_where(SLOTS, |slot| {
        tables.is_kind(slot, PLAIN) && tables.file(slot)[FILE_LINKS] > 1
    })?;
    add_to_file(tables, slot, FILE_LINKS, -1);
    Some(())
}

fn plain_length(tables: &mut Tables, chance: &mut Chance) -> Option<()> {
    lengthen(tables, chance, PLAIN)
}

fn directory_length(tables: &mut Tables, chance: &mut Chance) -> Option<()> {
    let slot = slot_of(tables, chance, DIRECTORY)?;
    let change = chance.pick(&[-1, 1, 16, 256, 65_536]);
    add_to_file(tables, slot, FILE_LENGTH, change);
    Some(())
}
