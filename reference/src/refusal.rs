//! The ways in which the store says no.

#[derive(Clone, Copy, Debug, PartialEq, Eq)]
pub enum Refusal {
    Unsound = 1,
    NoProcess = 2,
    Malformed = 3,
    NotHeld = 4,
    WrongDirection = 5,
    NameMissing = 6,
    NotADirectory = 7,
    WrongKind = 8,
    BitsForbid = 9,
    LabelForbids = 10,
    NameThere = 11,
    NotEmpty = 12,
    TableFull = 13,
    TooLong = 14,
    /// A ninth symbolic link in one walk, or a directory over 8 names deep.
    TooDeep = 15,
}

impl Refusal {
    /// This refusal, met in a walk at the given name counted from 1.
    pub fn at_name(self, stop: usize) -> Refused {
        Refused {
            refusal: self,
            stop: stop as u32,
        }
    }
}

/// A refusal, with the name at which a walk stopped, or 0.
#[derive(Clone, Copy, Debug, PartialEq, Eq)]
pub struct Refused {
    pub refusal: Refusal,
    pub stop: u32,
}

impl From<Refusal> for Refused {
    fn from(refusal: Refusal) -> Refused {
        Refused { refusal, stop: 0 }
    }
}
