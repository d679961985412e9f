//! Rights, and the modes in which a file can be open.

/// A set of rights: read 4, write 2, execute 1.
#[derive(Clone, Copy, Debug, PartialEq, Eq)]
pub struct Rights(pub u32);

impl Rights {
    /// Of a directory: to search it.
    pub const EXECUTE: Rights = Rights(1);
    pub const WRITE: Rights = Rights(2);
    pub const READ: Rights = Rights(4);
    pub const READ_WRITE: Rights = Rights(6);

    const MAX: u32 = 7;

    pub fn new(number: u32) -> Option<Rights> {
        (number <= Rights::MAX).then_some(Rights(number))
    }

    /// Whether all the wanted rights stand in these.
    pub fn hold(self, wanted: Rights) -> bool {
        self.0 & wanted.0 == wanted.0
    }
}

/// The mode of an open file.
#[derive(Clone, Copy, Debug, PartialEq, Eq)]
pub struct OpenMode(pub u32);

impl OpenMode {
    pub const READ: OpenMode = OpenMode(1);
    pub const WRITE: OpenMode = OpenMode(2);
    pub const BOTH: OpenMode = OpenMode(3);
    pub const APPEND: OpenMode = OpenMode(4);

    pub fn new(number: u32) -> Option<OpenMode> {
        Some(OpenMode(number)).filter(|mode| mode.in_range())
    }

    pub fn in_range(self) -> bool {
        (OpenMode::READ.0..=OpenMode::APPEND.0).contains(&self.0)
    }

    pub fn reads(self) -> bool {
        self == OpenMode::READ || self == OpenMode::BOTH
    }

    pub fn writes(self) -> bool {
        self == OpenMode::WRITE || self == OpenMode::BOTH || self == OpenMode::APPEND
    }

    /// The rights that opening in this mode wants.
    pub fn wanted(self) -> Rights {
        match self {
            OpenMode::READ => Rights::READ,
            OpenMode::BOTH => Rights::READ_WRITE,
            _ => Rights::WRITE,
        }
    }
}

/// An open call's number: a mode, and whether the file is to be truncated.
#[derive(Clone, Copy, Debug, PartialEq, Eq)]
pub struct Opening {
    pub mode: OpenMode,
    pub truncate: bool,
}

impl Opening {
    const TRUNCATE: u32 = 8;

    pub fn new(number: u32) -> Option<Opening> {
        let truncate = number & Opening::TRUNCATE != 0;
        let mode = OpenMode::new(number & !Opening::TRUNCATE)?;
        (mode.writes() || !truncate).then_some(Opening { mode, truncate })
    }
}
