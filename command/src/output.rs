//! What the command says. A closed pipe is a failure like any other.

use crate::failure::{said, Failure};
use crate::held::Warning;
use crate::streams;
use std::fmt::Display;
use std::io::{self, Write};

/// Writes all bytes to standard output.
pub fn print(bytes: &[u8]) -> Result<(), Failure> {
    streams::require_output()?;
    let mut out = io::stdout().lock();
    out.write_all(bytes)
        .and_then(|()| out.flush())
        .map_err(|error| {
            Failure::new(
                "standard output",
                format!("cannot be written: {}", said(&error)),
            )
        })
}

/// Writes a line to standard output.
pub fn print_line(line: impl Display) -> Result<(), Failure> {
    print(format!("{line}\n").as_bytes())
}

/// Says something on standard error. Where that is closed nobody can be told.
pub fn tell(what: impl Display) {
    let _ = io::stderr().write_all(format!("mritvelja: {what}\n").as_bytes());
}

/// Tells a warning if there is one. Answers whether all is well without it.
pub fn tell_warning(warning: Warning) -> bool {
    warning.map(tell).is_none()
}
