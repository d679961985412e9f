//! Tables of another size than the store's.

use crate::chance::Chance;
use mritvelja::layout::{
    BLOCK, FILE_WIDTH, OPEN_FILE_WIDTH, PROCESSES, PROCESS_WIDTH, RIGHTS_SIZE, SLOTS,
};
use mritvelja::Tables;

/// The slots that a store once had, and the widths of its records before they had a group.
const FORMER_SLOTS: usize = 64;
const FORMER_FILE_WIDTH: usize = FILE_WIDTH - 1;
const FORMER_PROCESS_WIDTH: usize = PROCESS_WIDTH - 1;

pub const TABLES: [&str; 8] = [
    "files",
    "contents",
    "open files",
    "processes",
    "policy",
    "files and contents, of 64 slots",
    "files, without a group",
    "processes, without a group",
];

/// Gives a table another size, or the two that have a record for each slot; answers which.
pub fn resize(tables: &mut Tables, chance: &mut Chance) -> usize {
    let table = chance.below(TABLES.len());
    match table {
        0 => resize_one(&mut tables.files, FILE_WIDTH, chance),
        1 => resize_one(&mut tables.contents, BLOCK, chance),
        2 => resize_one(&mut tables.open_files, OPEN_FILE_WIDTH, chance),
        3 => resize_one(&mut tables.processes, PROCESS_WIDTH, chance),
        4 => resize_one(&mut tables.policy, RIGHTS_SIZE, chance),
        5 => {
            tables.files.truncate(FORMER_SLOTS * FILE_WIDTH);
            tables.contents.truncate(FORMER_SLOTS * BLOCK);
        }
        6 => tables.files.truncate(SLOTS * FORMER_FILE_WIDTH),
        _ => tables.processes.truncate(PROCESSES * FORMER_PROCESS_WIDTH),
    }
    table
}

fn resize_one<T: Clone + Default>(table: &mut Vec<T>, record: usize, chance: &mut Chance) {
    let right = table.len();
    let wrong = match chance.below(8) {
        0 => 0,
        1 => 1,
        2 => right - 1,
        3 => right + 1,
        4 => right - record,
        5 => right + record,
        6 => right / 2,
        _ => right * 2,
    };
    table.resize(wrong, T::default());
}
