//! Stores, paths and calls by chance.

pub mod calls;
pub mod names;
pub mod open_files;
pub mod paths;
mod renames;
pub mod shape;
pub mod store;
mod targets;
pub mod ways;

pub use calls::CallMaker;
pub use store::random_store;
