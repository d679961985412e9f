//! The clauses of the open files.

use mritvelja::layout::*;
use mritvelja::Tables;

pub fn not_on_a_plain_file(tables: &Tables) -> Option<String> {
    tables.open_files_in_use().find_map(|open_file| {
        let slot = tables.open_file(open_file)[OPEN_SLOT] as usize;
        // Prompts, which are plain files, have a clause of their own.
        (slot < SLOTS && !tables.is_kind(slot, PLAIN))
            .then(|| format!("open file {open_file}: slot {slot} is no plain file"))
    })
}

pub fn references_not_as_counted(tables: &Tables) -> Option<String> {
    let miscounted = (0..OPEN_FILES).find_map(|open_file| {
        let references = tables.open_file(open_file)[OPEN_REFERENCES];
        let held = holders(tables, open_file);
        (references as usize != held).then(|| {
            format!(
                "open file {open_file}: references is {references}, \
                 but the descriptors counted are {held}"
            )
        })
    });
    miscounted.or_else(|| {
        tables
            .open_files_in_use()
            .find(|&open_file| tables.open_file(open_file)[OPEN_REFERENCES] == 0)
            .map(|open_file| format!("open file {open_file}: it is not free, and references is 0"))
    })
}

/// How many descriptors of processes in use hold an open file.
fn holders(tables: &Tables, open_file: usize) -> usize {
    tables
        .processes_in_use()
        .flat_map(|process| tables.descriptors(process))
        .filter(|&&word| word as usize == open_file + 1)
        .count()
}
