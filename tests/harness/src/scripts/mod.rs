//! Whole scripts by chance, run by both programs and compared.

pub mod block;
pub mod blocks;
pub mod breaks;
pub mod compare;
pub mod given;
pub mod lines;
pub mod run;
pub mod script;
pub mod tally;
