//! The ranges of the fields, where the tables' sizes do not say them.

use mritvelja::layout::{EXECUTE, LABELS, READ, WRITE};

pub const LAST_USER: u32 = 65_535;
pub const LAST_GROUP: u32 = 65_535;
pub const LAST_LABEL: u32 = LABELS as u32 - 1;
/// The rights of one class, or of a label.
pub const ALL_RIGHTS: u32 = READ | WRITE | EXECUTE;
pub const LAST_BITS: u32 = 0o777;

/// Every process label with every label of a file.
pub fn label_pairs() -> impl Iterator<Item = (usize, usize)> {
    (0..LABELS).flat_map(|process| (0..LABELS).map(move |file| (process, file)))
}
