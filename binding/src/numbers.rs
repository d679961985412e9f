//! The numbers of modes, refusals, reasons and memories, as `include/mritvelja.h` has them.

/// Modes of an open. Truncating is added to any mode but reading.
pub mod modes {
    /// For reads.
    pub const READ: u16 = 1;
    /// For writes.
    pub const WRITE: u16 = 2;
    /// For reads and writes.
    pub const BOTH: u16 = 3;
    /// For writes at the file's end.
    pub const APPEND: u16 = 4;
    /// Truncates the file to no bytes.
    pub const TRUNCATE: u16 = 8;
}

/// Refusals. A refused call changes nothing that was lent.
pub mod refusals {
    /// Not refused.
    pub const GRANTED: u32 = 0;
    /// Store, policy or rom not sound.
    pub const UNSOUND: u32 = 1;
    /// Process not in use.
    pub const NO_PROCESS: u32 = 2;
    /// Unknown call or mode, bad bits, path, target, position or count.
    pub const MALFORMED: u32 = 3;
    /// Descriptor not held.
    pub const NOT_HELD: u32 = 4;
    /// Not open for that direction.
    pub const WRONG_DIRECTION: u32 = 5;
    /// Name missing.
    pub const NAME_MISSING: u32 = 6;
    /// Not a directory.
    pub const NOT_A_DIRECTORY: u32 = 7;
    /// Wrong kind of file.
    pub const WRONG_KIND: u32 = 8;
    /// Bits or ownership forbid; of /rom also to user 0.
    pub const BITS_FORBID: u32 = 9;
    /// Label forbids.
    pub const LABEL_FORBIDS: u32 = 10;
    /// Name already there.
    pub const NAME_THERE: u32 = 11;
    /// Directory not empty.
    pub const NOT_EMPTY: u32 = 12;
    /// A table needed has no free place.
    pub const TABLE_FULL: u32 = 13;
    /// File would pass 512 bytes.
    pub const TOO_LONG: u32 = 14;
    /// Over 8 links followed, or a directory over 8 names deep.
    pub const TOO_DEEP: u32 = 15;

    /// What a refusal means, in words.
    pub fn text(refusal: u32) -> &'static str {
        match refusal {
            GRANTED => "granted",
            UNSOUND => "store, policy or rom not sound",
            NO_PROCESS => "process not in use",
            MALFORMED => "malformed call",
            NOT_HELD => "descriptor not held",
            WRONG_DIRECTION => "not open for that direction",
            NAME_MISSING => "name missing",
            NOT_A_DIRECTORY => "not a directory",
            WRONG_KIND => "wrong kind of file",
            BITS_FORBID => "bits or ownership forbid",
            LABEL_FORBIDS => "label forbids",
            NAME_THERE => "name already there",
            NOT_EMPTY => "directory not empty",
            TABLE_FULL => "a table has no free place",
            TOO_LONG => "file would pass 512 bytes",
            TOO_DEEP => "over 8 links followed or directory over 8 names deep",
            _ => "unknown refusal",
        }
    }
}

/// Why a run of a script stopped, tested before each call in this order.
pub mod reasons {
    /// The script's end.
    pub const END: u32 = 1;
    /// As many calls were answered as allowed.
    pub const ALLOWANCE: u32 = 2;
    /// The next block is not a call in the script's form.
    pub const BROKEN: u32 = 3;
    /// The next answer is too long for the output.
    pub const ROOM: u32 = 4;
}

/// In which memory the bytes of a borrowing read lie, as the C function says it.
pub mod memories {
    /// The contents of the store.
    pub const CONTENTS: u32 = 0;
    /// The factory part.
    pub const ROM: u32 = 1;
}
