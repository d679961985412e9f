//! The benchmark: the proved store beside the second program and a tmpfs.

pub mod borrows;
pub mod growth;
pub mod kinds;
pub mod mix;
pub mod scripts;
pub mod stores;
pub mod system;
pub mod timing;
pub mod undo;
