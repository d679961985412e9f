//! What a command reads whole: a file, or standard input.

use crate::arguments::Input;
use crate::failure::{said, Failure};
use crate::memory;
use crate::streams;
use crate::text;
use std::fs;
use std::io::{self, Read};

pub fn read(input: &Input) -> Result<Vec<u8>, Failure> {
    let read = match input {
        Input::File(path) => memory::grow(|| fs::read(path)),
        Input::Standard => {
            streams::require_input()?;
            let mut bytes = Vec::new();
            memory::grow(|| io::stdin().read_to_end(&mut bytes)).map(|_| bytes)
        }
    };
    read.map_err(|error| refused(input, format!("cannot be read: {}", said(&error))))
}

/// A failure that concerns what was read.
pub fn refused(input: &Input, why: impl Into<String>) -> Failure {
    let name = match input {
        Input::File(path) => text::printable(path.as_os_str()),
        Input::Standard => "standard input".into(),
    };
    Failure::new(name, why)
}
