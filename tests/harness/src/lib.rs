//! What the comparison and the benchmark share: stores and calls by chance,
//! defects, and the two programs behind one form of answer.

pub mod action;
pub mod answers;
pub mod bench;
pub mod building;
pub mod call;
pub mod chance;
pub mod compare;
pub mod defects;
pub mod difference;
pub mod features;
pub mod generate;
pub mod held;
pub mod ownership;
pub mod programs;
pub mod prompts;
pub mod renames;
pub mod rom;
pub mod scripts;
pub mod secrecy;
pub mod sizes;
pub mod stale;
pub mod tally;
pub mod tree;
pub mod walks;
