//! `convert`: the store of a file of version 1 in a new file of version 2. The old one is only read.

use crate::arguments::Store;
use crate::check;
use crate::failure::Failure;
use crate::held::{self, Warning};
use std::path::Path;

pub fn convert(old: &Store, new: &Path) -> Result<Warning, Failure> {
    let tables = held::read_former(old)?;
    check::require_sound(&old.path, &tables)?;
    held::create(new, &tables)
}
