//! Why a command was not carried out: what it concerns, and why not.

use crate::text;
use std::fmt;
use std::io;
use std::path::Path;

#[derive(Debug)]
pub struct Failure {
    what: String,
    why: String,
}

impl Failure {
    pub fn new(what: impl Into<String>, why: impl Into<String>) -> Failure {
        Failure {
            what: what.into(),
            why: why.into(),
        }
    }

    /// A failure that concerns a file.
    pub fn of(file: &Path, why: impl Into<String>) -> Failure {
        Failure::new(text::printable(file.as_os_str()), why)
    }

    /// What went wrong between this program and the system, with what was tried.
    pub fn tried(file: &Path, what_was_tried: &str, error: &io::Error) -> Failure {
        Failure::of(file, format!("{what_was_tried}: {}", said(error)))
    }
}

impl fmt::Display for Failure {
    fn fmt(&self, f: &mut fmt::Formatter<'_>) -> fmt::Result {
        write!(f, "{}: {}", self.what, self.why)
    }
}

/// What the system says of an error, without its number.
pub fn said(error: &io::Error) -> String {
    let text = error.to_string();
    match text.find(" (os error") {
        Some(end) => text[..end].to_string(),
        None => text,
    }
}
