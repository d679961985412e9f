//! The open files, and the processes with their descriptors.

use super::part;
use crate::text;
use mritvelja::layout::*;
use mritvelja::Tables;

pub fn open_file_lines(tables: &Tables, paths: &[(String, usize)]) -> Vec<String> {
    let lines = tables.open_files_in_use().map(|number| {
        let record = tables.open_file(number);
        let slot = record[OPEN_SLOT] as usize;
        let path = paths.iter().find(|(_, named)| *named == slot);
        format!(
            "Open file {number}: slot {slot}, {}; mode {} ({}), offset {}, references {}",
            path.map_or("which has no name", |(path, _)| path),
            record[OPEN_MODE],
            text::mode(record[OPEN_MODE]).expect("a sound store's mode has a word"),
            record[OPEN_OFFSET],
            record[OPEN_REFERENCES]
        )
    });
    part("Open files", lines.collect())
}

pub fn lines(tables: &Tables) -> Vec<String> {
    let lines = tables.processes_in_use().map(|process| {
        let record = tables.process(process);
        format!(
            "Process {process}: user {}, group {}, label {}; {}",
            record[PROCESS_USER],
            record[PROCESS_GROUP],
            record[PROCESS_LABEL],
            descriptors_line(tables, process)
        )
    });
    part("Processes", lines.collect())
}

fn descriptors_line(tables: &Tables, process: usize) -> String {
    let words = tables.descriptors(process).iter().enumerate();
    let held: Vec<String> = words
        .filter(|(_, &word)| word != 0)
        .map(|(descriptor, word)| format!("descriptor {descriptor} holds open file {}", word - 1))
        .collect();
    match held.is_empty() {
        true => "no descriptor holds anything".into(),
        false => held.join("; "),
    }
}
