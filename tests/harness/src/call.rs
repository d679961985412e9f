//! One call with all its parts.

use mritvelja::calls::*;
use std::fmt;

pub const CALLS: usize = 20;
/// The row of a borrowing read in a table of counts, which is no call.
pub const BORROW: usize = CALLS + 1;
pub const ROWS: usize = BORROW + 1;

const NAMES: [&str; ROWS] = [
    "unknown",
    "open",
    "create",
    "make directory",
    "unlink",
    "remove directory",
    "link",
    "list",
    "change bits",
    "stat",
    "close",
    "read",
    "write",
    "seek",
    "duplicate",
    "fork",
    "exit",
    "execute",
    "symlink",
    "readlink",
    "rename",
    "borrowing read",
];

#[derive(Clone, Debug)]
pub struct Call {
    pub process: u8,
    pub call: u8,
    pub descriptor: u8,
    pub number: u16,
    pub path: Vec<u8>,
    pub data: Vec<u8>,
    pub buffer: Vec<u8>,
}

impl Call {
    /// The row of this call in a table of counts: 0 for an unknown one.
    pub fn row(&self) -> usize {
        match usize::from(self.call) {
            known @ 1..=CALLS => known,
            _ => 0,
        }
    }

    pub fn changes_names(&self) -> bool {
        changes_names(self.call.into())
    }

    /// What of a well-formed path, where the call uses one, is walked with every symbolic link followed: most
    /// calls do not follow one at the last name.
    pub fn followed(&self) -> Option<&[u8]> {
        let last = self.path.iter().rposition(|&byte| byte == b'/');
        match self.call {
            OPEN | LIST | CHANGE_BITS | EXECUTE => Some(&self.path),
            call if uses(call.into(), Field::Path) => Some(&self.path[..last?]),
            _ => None,
        }
    }
}

/// Whether a call, granted, gives or takes a name.
pub fn changes_names(call: u16) -> bool {
    u8::try_from(call).is_ok_and(|call| matches!(call, CREATE..=LINK | SYMLINK | RENAME))
}

pub fn name_of(row: usize) -> &'static str {
    NAMES[row]
}

impl fmt::Display for Call {
    fn fmt(&self, out: &mut fmt::Formatter) -> fmt::Result {
        write!(
            out,
            "{} ({}) by process {}, descriptor {}, number {}, path \"{}\", data \"{}\", buffer of {}",
            NAMES[self.row()],
            self.call,
            self.process,
            self.descriptor,
            self.number,
            self.path.escape_ascii(),
            self.data.escape_ascii(),
            self.buffer.len()
        )
    }
}
