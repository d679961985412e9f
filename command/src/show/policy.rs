//! The policy: the rights that there are, and the transitions.

use super::part;
use crate::ranges::label_pairs;
use crate::text;
use mritvelja::layout::*;
use mritvelja::Tables;

pub fn rights_lines(tables: &Tables) -> Vec<String> {
    let lines = label_pairs()
        .map(|(process, file)| (process, file, tables.rights(process, file)))
        .filter(|&(_, _, rights)| rights != 0)
        .map(|(process, file, rights)| {
            let words = text::rights(u32::from(rights), " ");
            format!("Process label {process} over file label {file}: {words}")
        });
    part("Rights of labels", lines.collect())
}

pub fn transition_lines(tables: &Tables) -> Vec<String> {
    let lines = label_pairs()
        .map(|(process, program)| (process, program, tables.transition(process, program)))
        .filter(|&(_, _, label)| label != NO_TRANSITION)
        .map(|(process, program, label)| {
            format!("Process label {process} by program label {program}: to label {label}")
        });
    part("Transitions of labels", lines.collect())
}
