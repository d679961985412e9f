//! Whether standard input and output were open when the program began.
//!
//! Before `main` begins, a stream that is closed is opened on the null device,
//! after which it looks like one that was given. So it is asked earlier.

use crate::failure::Failure;
use crate::system::{self, Access};
use std::sync::atomic::{AtomicBool, Ordering};

static INPUT_IS_OPEN: AtomicBool = AtomicBool::new(true);
static OUTPUT_IS_OPEN: AtomicBool = AtomicBool::new(true);

extern "C" fn note() {
    let note = |is_open: &AtomicBool, descriptor, other_way| {
        let access = system::access(descriptor);
        is_open.store(
            access.is_some_and(|access| access != other_way),
            Ordering::Relaxed,
        );
    };
    note(&INPUT_IS_OPEN, 0, Access::Write);
    note(&OUTPUT_IS_OPEN, 1, Access::Read);
}

/// The system calls what stands in this section before `main`.
#[used]
#[link_section = ".init_array"]
static BEFORE_MAIN: extern "C" fn() = note;

/// Refuses to read a closed standard input as if it were empty.
pub fn require_input() -> Result<(), Failure> {
    require(&INPUT_IS_OPEN, "standard input", "is not open for reading")
}

/// Refuses to print what nobody can read.
pub fn require_output() -> Result<(), Failure> {
    require(
        &OUTPUT_IS_OPEN,
        "standard output",
        "is not open for writing",
    )
}

fn require(is_open: &AtomicBool, stream: &str, why: &str) -> Result<(), Failure> {
    match is_open.load(Ordering::Relaxed) {
        true => Ok(()),
        false => Err(Failure::new(stream, why)),
    }
}
