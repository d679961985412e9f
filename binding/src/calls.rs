//! The numbers of the calls, as `include/mritvelja.h` has them, and the parts that each uses.
//!
//! After each: the parts it uses, then the value it answers if granted.

/// Path, number: mode; the descriptor.
pub const OPEN: u8 = 1;
/// Path, number: bits; the slot.
pub const CREATE: u8 = 2;
/// Path, number: bits; the slot.
pub const MAKE_DIRECTORY: u8 = 3;
/// Path; 0.
pub const UNLINK: u8 = 4;
/// Path; 0.
pub const REMOVE_DIRECTORY: u8 = 5;
/// Path: old, data: new path; 0.
pub const LINK: u8 = 6;
/// Path, number: index; 1, or 0 past the end.
pub const LIST: u8 = 7;
/// Path, number: bits; 0.
pub const CHANGE_BITS: u8 = 8;
/// Path; 0, and fields.
pub const STAT: u8 = 9;
/// Descriptor; 0.
pub const CLOSE: u8 = 10;
/// Descriptor, buffer; bytes read.
pub const READ: u8 = 11;
/// Descriptor, data; bytes written.
pub const WRITE: u8 = 12;
/// Descriptor, number: position; the position.
pub const SEEK: u8 = 13;
/// Descriptor; the new descriptor.
pub const DUPLICATE: u8 = 14;
/// Nothing; the child.
pub const FORK: u8 = 15;
/// Nothing; 0.
pub const EXIT: u8 = 16;
/// Path; 0.
pub const EXECUTE: u8 = 17;
/// Path, data: target; the slot.
pub const SYMLINK: u8 = 18;
/// Path, buffer; bytes read.
pub const READLINK: u8 = 19;
/// Path: old, data: new path; 0.
pub const RENAME: u8 = 20;

/// A part of a call, by what the call takes it for.
#[derive(Clone, Copy, Debug, PartialEq, Eq)]
pub enum Part {
    /// A descriptor.
    Descriptor,
    /// A path, of link and rename the old one.
    Path,
    /// The number, as one of [`modes`](crate::modes).
    Mode,
    /// The number, as a file's bits.
    Bits,
    /// The number, as that of a name in a directory.
    Index,
    /// The number, as an offset.
    Position,
    /// The bytes of a write.
    Data,
    /// The data, as link's or rename's new path.
    NewPath,
    /// The data, as the path that a symbolic link leads to.
    Target,
    /// The buffer of a read or a readlink, of which a script gives the size as the number.
    Buffer,
}

/// Where a part stands in a request or in a script's block, in the order of the latter.
#[derive(Clone, Copy, Debug, PartialEq, Eq, PartialOrd, Ord)]
pub enum Field {
    /// The descriptor, `fd=`.
    Descriptor,
    /// The number, `arg=`.
    Number,
    /// The path, `path=`.
    Path,
    /// The data, `data=`.
    Data,
}

impl Part {
    /// Where the part stands; a buffer by its size, as in a script.
    pub fn field(self) -> Field {
        match self {
            Part::Descriptor => Field::Descriptor,
            Part::Mode | Part::Bits | Part::Index | Part::Position | Part::Buffer => Field::Number,
            Part::Path => Field::Path,
            Part::Data | Part::NewPath | Part::Target => Field::Data,
        }
    }
}

/// The parts that a call uses, in the order in which the header names them; nothing if there is no such call.
pub fn parts(call: u16) -> Option<&'static [Part]> {
    use Part::*;
    Some(match u8::try_from(call).ok()? {
        OPEN => &[Path, Mode],
        CREATE | MAKE_DIRECTORY | CHANGE_BITS => &[Path, Bits],
        UNLINK | REMOVE_DIRECTORY | STAT | EXECUTE => &[Path],
        LINK | RENAME => &[Path, NewPath],
        LIST => &[Path, Index],
        CLOSE | DUPLICATE => &[Descriptor],
        READ => &[Descriptor, Buffer],
        WRITE => &[Descriptor, Data],
        SEEK => &[Descriptor, Position],
        FORK | EXIT => &[],
        SYMLINK => &[Path, Target],
        READLINK => &[Path, Buffer],
        _ => return None,
    })
}

/// Whether a call uses a field, as scripts ask: an unknown call leaves none unused.
pub fn uses(call: u16, field: Field) -> bool {
    parts(call).is_none_or(|parts| parts.iter().any(|part| part.field() == field))
}

/// Whether a call puts bytes into its buffer.
pub fn reads(call: u16) -> bool {
    parts(call).is_some_and(|parts| parts.contains(&Part::Buffer))
}
