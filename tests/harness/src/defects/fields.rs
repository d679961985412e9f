//! "All fields in range"; free records, open files and processes are zero.

use super::pick::*;
use super::Break;
use crate::chance::Chance;
use crate::rom::ROM;
use mritvelja::layout::*;
use mritvelja::Tables;

const RANGE: &str = "all fields in range";
const FREE_ZERO: &str = "free ones are zero";

pub const DEFECTS: &[(&str, &str, Break)] = &[
    (RANGE, "kind over 3", kind),
    (RANGE, "owner over 65,535", owner),
    (RANGE, "group over 65,535", file_group),
    (RANGE, "bits over 511", bits),
    (RANGE, "file label over 15", file_label),
    (RANGE, "open slot past the last prompt's", open_slot),
    (RANGE, "mode 0", mode_zero),
    (RANGE, "mode over 4", mode_over),
    (RANGE, "offset over 512", offset),
    (RANGE, "in-use mark over 1", used_mark),
    (RANGE, "user over 65,535", user),
    (RANGE, "process's group over 65,535", process_group),
    (RANGE, "process label over 15", process_label),
    (RANGE, "descriptor over 32", descriptor),
    (RANGE, "rights over 7", rights),
    (
        RANGE,
        "transition neither to a label nor 255",
        policy_transition,
    ),
    (FREE_ZERO, "free record with a field", free_record),
    (FREE_ZERO, "free record with a group", free_group),
    (FREE_ZERO, "free open file with a field", free_open_file),
    (FREE_ZERO, "free process with user or label", free_process),
    (FREE_ZERO, "free process with a group", free_process_group),
    (
        FREE_ZERO,
        "free process with a descriptor",
        free_process_holds,
    ),
];

fn kind(tables: &mut Tables, chance: &mut Chance) -> Option<()> {
    let slot = chance.below(SLOTS);
    let word = over(chance, LINK);
    tables.file_mut(slot)[FILE_KIND] = word;
    Some(())
}

fn file_field(tables: &mut Tables, chance: &mut Chance, column: usize, highest: u32) -> Option<()> {
    let slot = slot_in_use(tables, chance)?;
    let word = over(chance, highest);
    tables.file_mut(slot)[column] = word;
    Some(())
}

fn owner(tables: &mut Tables, chance: &mut Chance) -> Option<()> {
    file_field(tables, chance, FILE_OWNER, 65_535)
}

fn file_group(tables: &mut Tables, chance: &mut Chance) -> Option<()> {
    file_field(tables, chance, FILE_GROUP, 65_535)
}

fn bits(tables: &mut Tables, chance: &mut Chance) -> Option<()> {
    file_field(tables, chance, FILE_BITS, 511)
}

fn file_label(tables: &mut Tables, chance: &mut Chance) -> Option<()> {
    file_field(tables, chance, FILE_LABEL, 15)
}

fn open_field(tables: &mut Tables, chance: &mut Chance, column: usize, highest: u32) -> Option<()> {
    let open_file = open_file(tables, chance, true)?;
    let word = over(chance, highest);
    tables.open_file_mut(open_file)[column] = word;
    Some(())
}

/// The open file is a new one, so that no file loses what keeps it.
fn open_slot(tables: &mut Tables, chance: &mut Chance) -> Option<()> {
    let open_file = open_by_someone(tables, chance, 0)?;
    let word = over(chance, ROM as u32);
    tables.open_file_mut(open_file)[OPEN_SLOT] = word;
    Some(())
}

fn mode_zero(tables: &mut Tables, chance: &mut Chance) -> Option<()> {
    let open_file = open_file(tables, chance, true)?;
    tables.open_file_mut(open_file)[OPEN_MODE] = 0;
    Some(())
}

fn mode_over(tables: &mut Tables, chance: &mut Chance) -> Option<()> {
    open_field(tables, chance, OPEN_MODE, 4)
}

fn offset(tables: &mut Tables, chance: &mut Chance) -> Option<()> {
    open_field(tables, chance, OPEN_OFFSET, BLOCK as u32)
}

fn process_field(
    tables: &mut Tables,
    chance: &mut Chance,
    column: usize,
    highest: u32,
) -> Option<()> {
    let process = process(tables, chance, true)?;
    let word = over(chance, highest);
    tables.process_mut(process)[column] = word;
    Some(())
}

fn used_mark(tables: &mut Tables, chance: &mut Chance) -> Option<()> {
    process_field(tables, chance, PROCESS_USED, 1)
}

fn user(tables: &mut Tables, chance: &mut Chance) -> Option<()> {
    process_field(tables, chance, PROCESS_USER, 65_535)
}

fn process_group(tables: &mut Tables, chance: &mut Chance) -> Option<()> {
    process_field(tables, chance, PROCESS_GROUP, 65_535)
}

fn process_label(tables: &mut Tables, chance: &mut Chance) -> Option<()> {
    process_field(tables, chance, PROCESS_LABEL, 15)
}

fn descriptor(tables: &mut Tables, chance: &mut Chance) -> Option<()> {
    let (process, descriptor) = free_descriptor(tables, chance)?;
    let word = over(chance, OPEN_FILES as u32);
    tables.descriptors_mut(process)[descriptor] = word;
    Some(())
}

fn rights(tables: &mut Tables, chance: &mut Chance) -> Option<()> {
    tables.policy[chance.below(RIGHTS_SIZE)] = chance.pick(&[8, 9, 15, 16, 128, 255]);
    Some(())
}

fn policy_transition(tables: &mut Tables, chance: &mut Chance) -> Option<()> {
    tables.policy[RIGHTS_SIZE + chance.below(RIGHTS_SIZE)] = chance.pick(&[16, 17, 100, 128, 254]);
    Some(())
}

fn free_record(tables: &mut Tables, chance: &mut Chance) -> Option<()> {
    let slot = slot_of(tables, chance, FREE)?;
    let column = chance.pick(&[FILE_OWNER, FILE_BITS, FILE_LABEL, FILE_LENGTH, FILE_LINKS]);
    tables.file_mut(slot)[column] = 1;
    Some(())
}

fn free_group(tables: &mut Tables, chance: &mut Chance) -> Option<()> {
    let slot = slot_of(tables, chance, FREE)?;
    tables.file_mut(slot)[FILE_GROUP] = 1;
    Some(())
}

fn free_open_file(tables: &mut Tables, chance: &mut Chance) -> Option<()> {
    let open_file = open_file(tables, chance, false)?;
    let column = chance.pick(&[OPEN_SLOT, OPEN_MODE, OPEN_OFFSET]);
    let word = chance.pick(&[1, 2, SLOTS as u32 - 1, 512, u32::MAX]);
    tables.open_file_mut(open_file)[column] = word;
    Some(())
}

fn free_process(tables: &mut Tables, chance: &mut Chance) -> Option<()> {
    let process = process(tables, chance, false)?;
    let column = chance.pick(&[PROCESS_USER, PROCESS_LABEL]);
    tables.process_mut(process)[column] = 1;
    Some(())
}

fn free_process_group(tables: &mut Tables, chance: &mut Chance) -> Option<()> {
    let process = process(tables, chance, false)?;
    tables.process_mut(process)[PROCESS_GROUP] = 1;
    Some(())
}

/// The reference is counted, so that only the free process is wrong.
fn free_process_holds(tables: &mut Tables, chance: &mut Chance) -> Option<()> {
    let process = process(tables, chance, false)?;
    let open_file = open_file(tables, chance, true)?;
    let references = tables.open_file(open_file)[OPEN_REFERENCES];
    tables.descriptors_mut(process)[chance.below(DESCRIPTORS)] = open_file as u32 + 1;
    tables.open_file_mut(open_file)[OPEN_REFERENCES] = references + 1;
    Some(())
}
