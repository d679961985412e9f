//! `cat`: a file's bytes as the host sees them, whatever bits and labels say. Links are followed.

use crate::arguments::Store;
use crate::check;
use crate::failure::Failure;
use crate::held;
use crate::output;
use crate::path;
use crate::seen;
use crate::text;
use mritvelja::layout::DIRECTORY;
use std::ffi::OsStr;
use std::os::unix::ffi::OsStrExt;

pub fn cat(store: &Store, file: &OsStr) -> Result<(), Failure> {
    let tables = held::read(store)?;
    check::require_sound(&store.path, &tables)?;
    let refused = |why: &str| Failure::of(&store.path, format!("{}: {why}", text::printable(file)));
    if !file.as_bytes().starts_with(b"/") {
        return Err(refused("a path begins with a slash"));
    }
    let slot = path::followed(&tables, file.as_bytes()).map_err(|why| refused(&why))?;
    if seen::is_kind(&tables, slot, DIRECTORY) {
        return Err(refused("is a directory"));
    }
    output::print(seen::bytes(&tables, slot))
}
