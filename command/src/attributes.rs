//! Extended attributes, access lists among them, as another file has them.

use crate::system;
use std::fs::File;
use std::io::{self, ErrorKind};

/// Gives a file the attributes of another, and takes from it those that the other
/// has not, such as its directory gave it. Some are only the system's to set.
pub fn copy(from: &File, to: &File) -> io::Result<()> {
    let names = system::attribute_names(from)?;
    for name in system::attribute_names(to)? {
        if !names.contains(&name) {
            unless_barred(system::remove_attribute(to, &name))?;
        }
    }
    for name in names {
        let value = system::attribute(from, &name)?;
        unless_barred(system::set_attribute(to, &name, &value))?;
    }
    Ok(())
}

fn unless_barred(done: io::Result<()>) -> io::Result<()> {
    match done {
        Err(error)
            if matches!(
                error.kind(),
                ErrorKind::PermissionDenied | ErrorKind::Unsupported
            ) =>
        {
            Ok(())
        }
        done => done,
    }
}
