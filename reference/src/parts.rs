//! Which parts of a call each call uses.

pub const READ: u16 = 11;
pub const READ_SYMLINK: u16 = 19;
const LAST_CALL: u16 = 20;

/// The parts that a call uses; all use the process and the call's own number.
pub struct Parts {
    pub descriptor: bool,
    pub number: bool,
    pub path: bool,
    pub data: bool,
}

impl Parts {
    /// An unknown call leaves no part unused.
    pub fn of(call: u16) -> Parts {
        let unknown = !(1..=LAST_CALL).contains(&call);
        Parts {
            descriptor: unknown || matches!(call, 10..=14),
            number: unknown || matches!(call, 1..=3 | 7 | 8 | READ | 13 | READ_SYMLINK),
            path: unknown || matches!(call, 1..=9 | 17..=20),
            data: unknown || matches!(call, 6 | 12 | 18 | 20),
        }
    }
}
