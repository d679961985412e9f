//! The bits of a file.

use crate::rights::Rights;

/// The rights of a file's owner, of its group and of all others, one octal
/// digit each.
#[derive(Clone, Copy, Debug, PartialEq, Eq)]
pub struct Bits(pub u32);

impl Bits {
    pub const NONE: Bits = Bits(0);

    const MAX: u32 = 0o777;

    pub fn new(number: u32) -> Option<Bits> {
        Some(Bits(number)).filter(|bits| bits.in_range())
    }

    pub fn in_range(self) -> bool {
        self.0 <= Bits::MAX
    }

    pub fn owner(self) -> Rights {
        Rights((self.0 >> 6) & 7)
    }

    pub fn group(self) -> Rights {
        Rights((self.0 >> 3) & 7)
    }

    pub fn others(self) -> Rights {
        Rights(self.0 & 7)
    }

    /// Whether anyone at all has the wanted rights.
    pub fn hold_for_anyone(self, wanted: Rights) -> bool {
        [self.owner(), self.group(), self.others()]
            .iter()
            .any(|rights| rights.hold(wanted))
    }
}
