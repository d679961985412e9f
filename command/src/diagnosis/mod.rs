//! What is wrong with a store that is not sound: the first clause of "Sound"
//! that fails, in the paper's order, and where.
//!
//! No table is trusted here: each clause is tested of any tables of the right size.

mod fields;
mod files;
mod links;
mod names;
mod open_files;
mod rom;
mod tree;
mod zeros;

#[cfg(test)]
mod agreement;
#[cfg(test)]
mod tests;

use mritvelja::Tables;
use std::fmt;

/// A test of one clause: where it fails and how, nothing if it holds.
type Clause = fn(&Tables) -> Option<String>;

/// The clauses of "Sound", in the papers' words and order.
const CLAUSES: [(&str, Clause); 16] = [
    ("all fields in range", fields::out_of_range),
    ("root a directory with no name", tree::root),
    (
        "every other directory named exactly once and at most 8 names deep",
        tree::named_once_and_not_too_deep,
    ),
    ("every directory reached from the root", tree::not_reached),
    (
        "names valid and different within a directory",
        names::not_valid_or_not_different,
    ),
    (
        "each place naming a slot in use other than 0",
        names::of_no_slot_in_use,
    ),
    ("names equal to the places counted", names::not_as_counted),
    (
        "a plain file's length at most 512, a directory's equal to its number of names",
        files::wrong_length,
    ),
    (
        "each plain file named or open",
        files::neither_named_nor_open,
    ),
    (
        "open entries only on plain files",
        open_files::not_on_a_plain_file,
    ),
    (
        "references equal to the descriptors counted, at least 1",
        open_files::references_not_as_counted,
    ),
    ("the zero bytes", zeros::not_zero),
    (
        "a link named once, bits 0, a valid path as text, of the record's length, then 0",
        links::not_a_link,
    ),
    (
        "no short or overlong part, and no prompt over 512 bytes",
        rom::not_a_part,
    ),
    (
        "an open entry on a prompt in mode 1 and not past the last prompt",
        rom::not_open_for_reading,
    ),
    ("rom in the root is reserved", rom::stored),
];

/// A clause that fails, and where.
#[derive(Debug, PartialEq, Eq)]
pub struct Defect {
    pub clause: &'static str,
    pub place: String,
}

impl Defect {
    /// A field that is out of range, in a store that is not yet in tables.
    pub fn out_of_range(place: String) -> Defect {
        Defect {
            clause: CLAUSES[0].0,
            place,
        }
    }
}

impl fmt::Display for Defect {
    fn fmt(&self, f: &mut fmt::Formatter<'_>) -> fmt::Result {
        let Defect { clause, place } = self;
        write!(f, "not sound: \"{clause}\" does not hold: {place}")
    }
}

/// The first clause that fails; nothing if the store is sound.
pub fn first_defect(tables: &Tables) -> Option<Defect> {
    CLAUSES
        .iter()
        .find_map(|&(clause, test)| test(tables).map(|place| Defect { clause, place }))
}
