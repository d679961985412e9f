//! What comes back from a run of a script.

use crate::reasons;

/// How far a run of a script came.
#[repr(C)]
#[derive(Clone, Copy, Debug, PartialEq, Eq)]
pub struct Replayed {
    /// The byte of the script where the next block begins.
    pub next: usize,
    /// Bytes of the output that hold answers.
    pub written: usize,
    /// Calls answered, never more than allowed.
    pub calls: u32,
    /// Why the run stopped: one of [`reasons`](crate::reasons).
    pub reason: u32,
}

impl Replayed {
    /// Whether no more of the script can be run.
    #[inline]
    pub fn is_last(&self) -> bool {
        self.reason == reasons::END || self.reason == reasons::BROKEN
    }
}
