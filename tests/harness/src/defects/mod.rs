//! Stores with one defect: for each clause of "Sound", the ways to break it alone.

mod fields;
mod names;
mod open_files;
mod pick;
mod rom;
mod symlinks;
mod zeros;

use crate::chance::Chance;
use mritvelja::Tables;

/// Breaks a sound store in one way; `None` where this store has no place for it,
/// and then the store may be half changed.
pub type Break = fn(&mut Tables, &mut Chance) -> Option<()>;

pub struct Defect {
    /// The clause of "Sound" that it breaks, short and in the paper's words.
    pub clause: &'static str,
    pub name: &'static str,
    pub make: Break,
}

/// The defects of all clauses, in the paper's order.
pub fn all() -> Vec<Defect> {
    let groups = [
        fields::DEFECTS,
        names::DEFECTS,
        open_files::DEFECTS,
        zeros::DEFECTS,
        symlinks::DEFECTS,
        rom::DEFECTS,
    ];
    groups
        .into_iter()
        .flatten()
        .map(|&(clause, name, make)| Defect { clause, name, make })
        .collect()
}
