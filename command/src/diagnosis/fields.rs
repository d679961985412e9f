//! "All fields in range."

use crate::ranges::{label_pairs, ALL_RIGHTS, LAST_BITS, LAST_GROUP, LAST_LABEL, LAST_USER};
use mritvelja::layout::*;
use mritvelja::modes;
use mritvelja::Tables;

const FIRST_MODE: u32 = modes::READ as u32;
const LAST_MODE: u32 = modes::APPEND as u32;
/// Past the slots come the prompts, as many as there may be.
const LAST_PROMPT: u32 = (ROM_FIRST + PROMPTS) as u32 - 1;

pub fn out_of_range(tables: &Tables) -> Option<String> {
    (0..SLOTS)
        .find_map(|slot| file(tables, slot))
        .or_else(|| {
            tables
                .open_files_in_use()
                .find_map(|number| open_file(tables, number))
        })
        .or_else(|| (0..PROCESSES).find_map(|process| in_process(tables, process)))
        .or_else(|| policy(tables))
}

/// A field that is not from `first` to `last`.
fn outside(owner: String, field: &str, value: u32, first: u32, last: u32) -> Option<String> {
    let is_inside = (first..=last).contains(&value);
    (!is_inside).then(|| format!("{owner}: {field} is {value}, not {first} to {last}"))
}

/// Length and links have clauses of their own; a version is any word.
fn file(tables: &Tables, slot: usize) -> Option<String> {
    let record = tables.file(slot);
    let ranges = [
        (FILE_KIND, "kind", LINK),
        (FILE_OWNER, "owner", LAST_USER),
        (FILE_GROUP, "group", LAST_GROUP),
        (FILE_BITS, "bits", LAST_BITS),
        (FILE_LABEL, "label", LAST_LABEL),
    ];
    ranges.into_iter().find_map(|(column, field, last)| {
        outside(format!("slot {slot}"), field, record[column], 0, last)
    })
}

/// References have a clause of their own.
fn open_file(tables: &Tables, number: usize) -> Option<String> {
    let record = tables.open_file(number);
    let ranges = [
        (OPEN_SLOT, "slot", 0, LAST_PROMPT),
        (OPEN_MODE, "mode", FIRST_MODE, LAST_MODE),
        (OPEN_OFFSET, "offset", 0, BLOCK as u32),
    ];
    ranges.into_iter().find_map(|(column, field, first, last)| {
        outside(
            format!("open file {number}"),
            field,
            record[column],
            first,
            last,
        )
    })
}

/// What a process not in use holds must be 0, which is the last clause's.
fn in_process(tables: &Tables, process: usize) -> Option<String> {
    let record = tables.process(process);
    let owner = || format!("process {process}");
    match record[PROCESS_USED] {
        0 => None,
        1 => outside(owner(), "user", record[PROCESS_USER], 0, LAST_USER)
            .or_else(|| outside(owner(), "group", record[PROCESS_GROUP], 0, LAST_GROUP))
            .or_else(|| outside(owner(), "label", record[PROCESS_LABEL], 0, LAST_LABEL))
            .or_else(|| descriptors(tables, process)),
        mark => outside(owner(), "in-use mark", mark, 0, 1),
    }
}

fn descriptors(tables: &Tables, process: usize) -> Option<String> {
    let words = tables.descriptors(process).iter().enumerate();
    words.into_iter().find_map(|(descriptor, &word)| {
        let owner = format!("process {process}, descriptor {descriptor}");
        outside(owner, "its word", word, 0, OPEN_FILES as u32)
    })
}

fn policy(tables: &Tables) -> Option<String> {
    let rights = label_pairs().find_map(|(process, file)| {
        let owner = format!("policy, rights of process label {process} over file label {file}");
        let rights = u32::from(tables.rights(process, file));
        outside(owner, "the cell", rights, 0, ALL_RIGHTS)
    });
    rights.or_else(|| {
        label_pairs().find_map(|(process, program)| {
            let label = tables.transition(process, program);
            let is_label = u32::from(label) <= LAST_LABEL || label == NO_TRANSITION;
            (!is_label).then(|| {
                format!(
                    "policy, transition of process label {process} by program label {program}: \
                     the cell is {label}, not 0 to {LAST_LABEL} or {NO_TRANSITION}"
                )
            })
        })
    })
}
