//! Where two stores differ.

use mritvelja::layout::*;
use mritvelja::Tables;

/// The first word in which two stores differ, with both its values.
pub fn first_difference(one: &Tables, other: &Tables) -> Option<String> {
    differing_word("files", &one.files, &other.files, FILE_WIDTH)
        .or_else(|| differing_word("contents", &one.contents, &other.contents, BLOCK))
        .or_else(|| {
            let (ours, theirs) = (&one.open_files, &other.open_files);
            differing_word("open files", ours, theirs, OPEN_FILE_WIDTH)
        })
        .or_else(|| {
            let (ours, theirs) = (&one.processes, &other.processes);
            differing_word("processes", ours, theirs, PROCESS_WIDTH)
        })
        .or_else(|| differing_word("policy", &one.policy, &other.policy, LABELS))
        .or_else(|| differing_word("rom", &one.rom, &other.rom, BLOCK))
}

fn differing_word<T: PartialEq + std::fmt::Debug>(
    table: &str,
    ours: &[T],
    theirs: &[T],
    width: usize,
) -> Option<String> {
    let longest = ours.len().max(theirs.len());
    let at = (0..longest).find(|&at| ours.get(at) != theirs.get(at))?;
    let (record, column) = (at / width, at % width);
    let word = |table: &[T]| match table.get(at) {
        Some(word) => format!("{word:?}"),
        None => "nothing".into(),
    };
    Some(format!(
        "{table}, record {record}, column {column}: {} and {}",
        word(ours),
        word(theirs)
    ))
}
