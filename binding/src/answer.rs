//! What comes back from a call.

use crate::refusals;

/// The answer to a call. What an answer does not have is 0.
#[repr(C)]
#[derive(Clone, Copy, Debug, PartialEq, Eq)]
pub struct Answer {
    /// 0 granted, else why not: one of [`refusals`](crate::refusals).
    pub refusal: u32,
    /// The name of the path, from 1, at which a walk was refused.
    pub stop: u32,
    /// As the call says.
    pub value: u32,
    /// Bytes of a listed name.
    pub name_length: u32,
    /// The listed name, then 0.
    pub name: [u8; 16],
    /// Of stat: the columns of the file's record.
    pub fields: [u32; 8],
}

impl Answer {
    /// Whether the call was granted.
    #[inline]
    pub fn is_granted(&self) -> bool {
        self.refusal == refusals::GRANTED
    }
}
