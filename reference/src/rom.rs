//! Read-only memory: the factory's prompts, which stand in the tree as the
//! files of /rom.
//!
//! Any bytes may be lent for it, and the soundness test judges them. Where it
//! was not made, bytes that are no prompts are passed over. What is cold here
//! is asked for in the same places as the store's files, and far less often.

use crate::bits::Bits;
use crate::directory::BLOCK;
use crate::numbers::{Slot, PROMPTS};
use crate::records::{File, Kind};

/// The name of the prompts' directory. In the root nothing else may have it.
pub const NAME: &[u8] = b"rom";

/// The names of the prompts, in byte order.
const PROMPT_NAMES: [&[u8]; PROMPTS] = [
    b"00", b"01", b"02", b"03", b"04", b"05", b"06", b"07", b"08", b"09", b"10", b"11", b"12",
    b"13", b"14", b"15",
];

const PROMPT_BITS: Bits = Bits(0o444);
const DIRECTORY_BITS: Bits = Bits(0o555);

/// The prompts, each as a length in two bytes and that many bytes.
#[derive(Clone, Copy)]
pub struct Rom<'a>(pub &'a [u8]);

impl<'a> Rom<'a> {
    /// Whether there are up to 16 prompts of at most 512 bytes and nothing else.
    pub fn is_sound(self) -> bool {
        let mut prompts = Prompts(self.0);
        let lengths_fit = prompts
            .by_ref()
            .take(PROMPTS)
            .all(|prompt| prompt.len() <= BLOCK);
        lengths_fit && prompts.0.is_empty()
    }

    fn prompts(self) -> impl Iterator<Item = &'a [u8]> {
        Prompts(self.0).take(PROMPTS)
    }

    /// The bytes of a prompt, if there is one with this number.
    #[cold]
    pub fn prompt(self, slot: Slot) -> Option<&'a [u8]> {
        self.prompts().nth(slot.prompt()?)
    }

    /// The prompt of this name.
    #[cold]
    pub fn find(self, name: &[u8]) -> Option<Slot> {
        self.named()
            .position(|prompt_name| prompt_name == name)
            .map(Slot::of_prompt)
    }

    /// The `index`-th name of a prompt in byte order, from 0.
    pub fn name_in_order(self, index: usize) -> Option<&'static [u8]> {
        self.named().nth(index)
    }

    /// The names of the prompts that there are.
    fn named(self) -> impl Iterator<Item = &'static [u8]> + 'a {
        PROMPT_NAMES
            .into_iter()
            .zip(self.prompts())
            .map(|(name, _)| name)
    }

    /// The record of the prompts' directory, or of a prompt.
    #[cold]
    pub fn file(self, slot: Slot) -> File {
        let (kind, bits, length) = if slot == Slot::ROM {
            (Kind::DIRECTORY, DIRECTORY_BITS, self.prompts().count())
        } else {
            let bytes = self.prompt(slot).unwrap_or(&[]);
            (Kind::PLAIN, PROMPT_BITS, bytes.len())
        };
        File {
            kind,
            bits,
            length: length as u32,
            links: 1,
            ..File::free(0)
        }
    }
}

/// The prompts that are still to come, up to one that is cut short.
struct Prompts<'a>(&'a [u8]);

impl<'a> Iterator for Prompts<'a> {
    type Item = &'a [u8];

    fn next(&mut self) -> Option<&'a [u8]> {
        let &[low, high, ref after @ ..] = self.0 else {
            return None;
        };
        let length = u16::from_le_bytes([low, high]);
        let (prompt, rest) = after.split_at_checked(length.into())?;
        self.0 = rest;
        Some(prompt)
    }
}
