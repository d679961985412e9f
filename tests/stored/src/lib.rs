//! What the programs of the gate must write, by the second program.

pub mod answers;
pub mod records;
pub mod tables;
