//! The numbers that name things, each with its own type.
//!
//! Those read from the tables are taken as they stand; the soundness test is
//! what makes sure that they are in range.

pub const SLOTS: usize = 128;
/// The most prompts.
pub const PROMPTS: usize = 16;
pub const OPEN_FILES: usize = 32;
pub const PROCESSES: usize = 8;
pub const DESCRIPTORS: usize = 8;

/// The number of a file: one of the store's 128, or after them one of ROM's.
#[derive(Clone, Copy, Debug, PartialEq, Eq)]
pub struct Slot(pub u32);

impl Slot {
    pub const ROOT: Slot = Slot(0);

    /// The prompts' directory. Its number stands in no table and no answer.
    pub const ROM: Slot = Slot((SLOTS + PROMPTS) as u32);

    /// The slot of the store with this number.
    pub fn new(number: u32) -> Option<Slot> {
        ((number as usize) < SLOTS).then_some(Slot(number))
    }

    pub fn index(self) -> usize {
        self.0 as usize
    }

    /// All slots of the store.
    pub fn all() -> impl Iterator<Item = Slot> {
        (0..SLOTS as u32).map(Slot)
    }

    /// The number of a prompt, counted from 0 among them.
    pub fn of_prompt(index: usize) -> Slot {
        Slot((SLOTS + index) as u32)
    }

    /// Which prompt this is, if it is one's number.
    pub fn prompt(self) -> Option<usize> {
        self.index()
            .checked_sub(SLOTS)
            .filter(|&index| index < PROMPTS)
    }

    /// Whether this is a prompt or their directory, which nobody can change.
    pub fn is_in_rom(self) -> bool {
        self.index() >= SLOTS
    }
}

/// The number of an open file.
#[derive(Clone, Copy, Debug, PartialEq, Eq)]
pub struct OpenFileNumber(pub u32);

impl OpenFileNumber {
    pub fn index(self) -> usize {
        self.0 as usize
    }

    pub fn all() -> impl Iterator<Item = OpenFileNumber> {
        (0..OPEN_FILES as u32).map(OpenFileNumber)
    }

    /// What a descriptor word names: 0 is nothing, `e + 1` is open file `e`.
    pub fn from_word(word: u32) -> Option<OpenFileNumber> {
        word.checked_sub(1).map(OpenFileNumber)
    }

    pub fn to_word(held: Option<OpenFileNumber>) -> u32 {
        held.map_or(0, |open_file| open_file.0 + 1)
    }
}

/// The number of a process.
#[derive(Clone, Copy, Debug, PartialEq, Eq)]
pub struct ProcessNumber(u8);

impl ProcessNumber {
    pub fn new(number: u8) -> Option<ProcessNumber> {
        (usize::from(number) < PROCESSES).then_some(ProcessNumber(number))
    }

    pub fn index(self) -> usize {
        usize::from(self.0)
    }

    pub fn all() -> impl Iterator<Item = ProcessNumber> {
        (0..PROCESSES as u8).map(ProcessNumber)
    }
}

/// The number by which a process holds an open file.
#[derive(Clone, Copy, Debug, PartialEq, Eq)]
pub struct Descriptor(u8);

impl Descriptor {
    pub fn new(number: u8) -> Option<Descriptor> {
        (usize::from(number) < DESCRIPTORS).then_some(Descriptor(number))
    }

    pub fn index(self) -> usize {
        usize::from(self.0)
    }

    pub fn all() -> impl Iterator<Item = Descriptor> {
        (0..DESCRIPTORS as u8).map(Descriptor)
    }
}
