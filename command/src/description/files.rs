//! Lines of files: directories, plain files and symbolic links by their paths, further
//! names, files without a name, and what is left of files that are gone.

use super::building::Building;
use super::line::Line;
use super::lowest_free;
use crate::path;
use crate::ranges::{LAST_GROUP, LAST_LABEL, LAST_USER};
use crate::rom;
use crate::text;
use mritvelja::layout::*;
use mritvelja::Tables;

/// `directory PATH owner N group N bits BITS label N version N slot N entry N`
pub fn directory(building: &mut Building, line: &mut Line) -> Result<(), String> {
    let record = record(line, DIRECTORY)?;
    if line.operand == b"/" {
        building.give("directory /".into(), line.number)?;
        let length = building.tables.file(ROOT)[FILE_LENGTH];
        *building.tables.file_mut(ROOT) = record;
        building.tables.file_mut(ROOT)[FILE_LENGTH] = length;
        return Ok(());
    }
    if line.operand.iter().filter(|&&byte| byte == b'/').count() > NAMES {
        return Err(format!("a directory is at most {NAMES} names deep"));
    }
    add_named(building, line, record).map(|_| ())
}

/// `file PATH owner N group N bits BITS label N version N slot N entry N data BYTES`
pub fn file(building: &mut Building, line: &mut Line) -> Result<(), String> {
    let record = record(line, PLAIN)?;
    let slot = add_named(building, line, record)?;
    set_data(building, line, slot)
}

/// `link PATH to PATH entry N`: a further name of a plain file.
pub fn link(building: &mut Building, line: &mut Line) -> Result<(), String> {
    let slot = plain_file(&building.tables, &line.require("to")?)?;
    add_name(&mut building.tables, line, slot)
}

/// `symlink PATH to PATH owner N group N label N version N slot N entry N`: a symbolic link, whose
/// target need not be there. Its bits are 0.
pub fn symlink(building: &mut Building, line: &mut Line) -> Result<(), String> {
    let target = line.require("to")?;
    if let Some(why) = path::malformed(&target) {
        let target = text::readable(&target);
        return Err(format!("to is {target}, not a path: {why}"));
    }
    let record = record_without_bits(line, LINK)?;
    let slot = add_named(building, line, record)?;
    set_bytes(building, slot, &target);
    Ok(())
}

/// `unnamed SLOT owner N group N bits BITS label N version N data BYTES`: a plain file
/// that is open and has no name any more.
pub fn unnamed(building: &mut Building, line: &mut Line) -> Result<(), String> {
    let slot = line.operand_number(SLOTS as u32 - 1)?;
    let slot = building.give_slot(Some(slot), line.number)?;
    *building.tables.file_mut(slot) = record(line, PLAIN)?;
    set_data(building, line, slot)
}

/// `free SLOT version N`: a slot that is not in use keeps its version.
pub fn free(building: &mut Building, line: &mut Line) -> Result<(), String> {
    let slot = line.operand_number(SLOTS as u32 - 1)?;
    let slot = building.give_slot(Some(slot), line.number)?;
    building.tables.file_mut(slot)[FILE_VERSION] = line.require_number("version", u32::MAX)?;
    Ok(())
}

/// The slot of the plain file that a path names.
pub fn plain_file(tables: &Tables, path: &[u8]) -> Result<usize, String> {
    require_stored(path)?;
    slot_at(tables, path)
        .filter(|&slot| tables.is_kind(slot, PLAIN))
        .ok_or_else(|| format!("{} is no file of a line before", text::readable(path)))
}

/// A file's record, its length and links still 0.
fn record(line: &mut Line, kind: u32) -> Result<[u32; FILE_WIDTH], String> {
    let bits = line.take_bits("bits")?;
    let mut record = record_without_bits(line, kind)?;
    record[FILE_BITS] = bits;
    Ok(record)
}

/// The same with bits 0, and no field for them.
fn record_without_bits(line: &mut Line, kind: u32) -> Result<[u32; FILE_WIDTH], String> {
    let mut record = [0; FILE_WIDTH];
    record[FILE_KIND] = kind;
    record[FILE_OWNER] = line.take_number("owner", LAST_USER)?.unwrap_or(0);
    record[FILE_GROUP] = line.take_number("group", LAST_GROUP)?.unwrap_or(0);
    record[FILE_LABEL] = line.take_number("label", LAST_LABEL)?.unwrap_or(0);
    record[FILE_VERSION] = line.take_number("version", u32::MAX)?.unwrap_or(0);
    Ok(record)
}

/// Gives the line a slot with this record, and that slot the line's path.
fn add_named(
    building: &mut Building,
    line: &mut Line,
    record: [u32; FILE_WIDTH],
) -> Result<usize, String> {
    let wanted = line.take_number("slot", SLOTS as u32 - 1)?;
    let slot = building.give_slot(wanted, line.number)?;
    *building.tables.file_mut(slot) = record;
    add_name(&mut building.tables, line, slot)?;
    Ok(slot)
}

fn set_data(building: &mut Building, line: &mut Line, slot: usize) -> Result<(), String> {
    let data = line.take("data").unwrap_or_default();
    if data.len() > BLOCK {
        return Err(format!("data has {} bytes, more than {BLOCK}", data.len()));
    }
    set_bytes(building, slot, &data);
    Ok(())
}

fn set_bytes(building: &mut Building, slot: usize, bytes: &[u8]) {
    building.tables.block_mut(slot)[..bytes.len()].copy_from_slice(bytes);
    building.tables.file_mut(slot)[FILE_LENGTH] = bytes.len() as u32;
}

/// Gives a slot the line's path as a name, at the entry that the line names or the lowest free one.
fn add_name(tables: &mut Tables, line: &mut Line, slot: usize) -> Result<(), String> {
    let (directory, name) = split(tables, &line.operand)?;
    let entry_of = |name| {
        tables
            .dirents_in_use(directory)
            .find(|&entry| tables.dirent_name(directory, entry) == name)
    };
    if entry_of(name).is_some() {
        return Err(format!(
            "{} stands in a line before",
            text::readable(&line.operand)
        ));
    }
    let name = name.to_vec();
    let is_taken = |entry| tables.dirent_slot(directory, entry) != 0;
    let entry = match line.take_number("entry", DIRENTS as u32 - 1)? {
        Some(entry) if is_taken(entry as usize) => {
            return Err(format!("entry {entry} of the directory is taken"))
        }
        Some(entry) => entry as usize,
        None => lowest_free(DIRENTS, is_taken)
            .ok_or_else(|| format!("the directory has {DIRENTS} names already"))?,
    };
    tables.set_dirent(directory, entry, &name, slot);
    tables.file_mut(directory)[FILE_LENGTH] += 1;
    tables.file_mut(slot)[FILE_LINKS] += 1;
    Ok(())
}

/// Refuses /rom and what is in it, since no store has that name in its root.
fn require_stored(path: &[u8]) -> Result<(), String> {
    let names = path.strip_prefix(b"/").unwrap_or_default();
    match names.split(|&byte| byte == b'/').next() == Some(rom::NAME) {
        false => Ok(()),
        true => Err("/rom is reserved for the factory part, which is in no description".into()),
    }
}

/// The directory that is to have a path's last name, and that name.
fn split<'a>(tables: &Tables, path: &'a [u8]) -> Result<(usize, &'a [u8]), String> {
    require_stored(path)?;
    let slash = path.iter().rposition(|&byte| byte == b'/');
    let (parent, name) = path.split_at(slash.ok_or("a path begins with a slash")?);
    let name = &name[1..];
    if !path::is_name(name) {
        return Err(path::not_a_name(name));
    }
    let directory = match parent {
        [] => Some(ROOT),
        _ => slot_at(tables, parent).filter(|&slot| tables.is_kind(slot, DIRECTORY)),
    };
    match directory {
        Some(directory) => Ok((directory, name)),
        None => Err(format!(
            "{} is no directory of a line before",
            text::readable(parent)
        )),
    }
}

/// The slot that a path names, a slash before each name.
fn slot_at(tables: &Tables, path: &[u8]) -> Option<usize> {
    let names = path.strip_prefix(b"/")?.split(|&byte| byte == b'/');
    path::slot_at(tables, names)
}
