//! What a call asks for.

/// One call but for its buffer. Parts that a call does not use are not looked
/// at; the default leaves all of them 0 and empty.
#[derive(Clone, Copy, Debug, Default, PartialEq, Eq)]
pub struct Request<'a> {
    /// Who calls.
    pub process: u8,
    /// One of [`calls`](crate::calls); any other number is malformed.
    pub call: u8,
    /// A descriptor of that process.
    pub descriptor: u8,
    /// The mode, bits, index or position.
    pub number: u16,
    /// The path, not ended by 0.
    pub path: &'a [u8],
    /// A write's bytes, link's or rename's new path, or symlink's target.
    pub data: &'a [u8],
}
