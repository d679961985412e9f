//! Lines of the policy: rights and transitions of labels.

use super::building::Building;
use super::line::Line;
use crate::ranges::LAST_LABEL;

/// `rights LABEL over LABEL allow RIGHTS`: what processes of a label may do with files of a label.
pub fn rights(building: &mut Building, line: &mut Line) -> Result<(), String> {
    let process = line.operand_number(LAST_LABEL)?;
    let file = line.require_number("over", LAST_LABEL)?;
    let rights = line.take_rights("allow")?;
    building.give(format!("rights {process} over {file}"), line.number)?;
    let rights = u8::try_from(rights).expect("rights are at most 7");
    building
        .tables
        .set_rights(process as usize, file as usize, rights);
    Ok(())
}

/// `transition LABEL by LABEL to LABEL`: what a process's label becomes by executing a file of a label.
pub fn transition(building: &mut Building, line: &mut Line) -> Result<(), String> {
    let process = line.operand_number(LAST_LABEL)?;
    let program = line.require_number("by", LAST_LABEL)?;
    let label = line.require_number("to", LAST_LABEL)?;
    building.give(format!("transition {process} by {program}"), line.number)?;
    let label = u8::try_from(label).expect("a label is at most 15");
    building
        .tables
        .set_transition(process as usize, program as usize, label);
    Ok(())
}
