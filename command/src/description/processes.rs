//! Lines of processes, of open files and of the descriptors that hold them.

use super::building::{open_name, Building};
use super::files;
use super::line::Line;
use crate::ranges::{LAST_GROUP, LAST_LABEL, LAST_USER};
use crate::text;
use mritvelja::layout::*;

const LAST_PROCESS: u32 = PROCESSES as u32 - 1;
const LAST_OPEN_FILE: u32 = OPEN_FILES as u32 - 1;

/// `process N user N group N label N`
pub fn process(building: &mut Building, line: &mut Line) -> Result<(), String> {
    let process = line.operand_number(LAST_PROCESS)?;
    building.give(format!("process {process}"), line.number)?;
    let record = building.tables.process_mut(process as usize);
    record[PROCESS_USED] = 1;
    record[PROCESS_USER] = line.take_number("user", LAST_USER)?.unwrap_or(0);
    record[PROCESS_GROUP] = line.take_number("group", LAST_GROUP)?.unwrap_or(0);
    record[PROCESS_LABEL] = line.take_number("label", LAST_LABEL)?.unwrap_or(0);
    Ok(())
}

/// `open N path PATH mode MODE offset N`, or `slot N` for a file without a name.
pub fn open(building: &mut Building, line: &mut Line) -> Result<(), String> {
    let number = line.operand_number(LAST_OPEN_FILE)? as usize;
    building.give(open_name(number), line.number)?;
    let tables = &mut building.tables;
    let slot = match (
        line.take("path"),
        line.take_number("slot", SLOTS as u32 - 1)?,
    ) {
        (Some(path), None) => files::plain_file(tables, &path)?,
        (None, Some(slot)) if tables.is_kind(slot as usize, PLAIN) => slot as usize,
        (None, Some(slot)) => return Err(format!("slot {slot} is of no file of a line before")),
        _ => return Err("either path or slot must say what is open".into()),
    };
    let mode = line.require("mode")?;
    let mode = text::parse_mode(&mode).ok_or_else(|| {
        format!(
            "mode is {}, not read, write, both or append",
            text::readable(&mode)
        )
    })?;
    let record = tables.open_file_mut(number);
    record[OPEN_SLOT] = slot as u32;
    record[OPEN_MODE] = u32::from(mode);
    record[OPEN_OFFSET] = line.take_number("offset", BLOCK as u32)?.unwrap_or(0);
    Ok(())
}

/// `descriptor N process N open N`
pub fn descriptor(building: &mut Building, line: &mut Line) -> Result<(), String> {
    let descriptor = line.operand_number(DESCRIPTORS as u32 - 1)?;
    let process = line.require_number("process", LAST_PROCESS)?;
    let number = line.require_number("open", LAST_OPEN_FILE)?;
    building.give(
        format!("descriptor {descriptor} process {process}"),
        line.number,
    )?;
    let tables = &mut building.tables;
    if tables.process(process as usize)[PROCESS_USED] == 0 {
        return Err(format!("process {process} stands in no line before"));
    }
    if tables.open_file(number as usize)[OPEN_MODE] == 0 {
        return Err(format!("open {number} stands in no line before"));
    }
    tables.descriptors_mut(process as usize)[descriptor as usize] = number + 1;
    tables.open_file_mut(number as usize)[OPEN_REFERENCES] += 1;
    Ok(())
}
