//! The factory part: its prompts, and how calls see them among the files.

use mritvelja::layout::*;
use mritvelja::Tables;

/// The number of /rom in a walk, which nothing shows.
pub const ROM: usize = ROM_FIRST + PROMPTS;
/// Its name in the root, where nothing else may have it.
pub const NAME: &[u8] = b"rom";

const PROMPT_NAMES: [&[u8]; PROMPTS] = [
    b"00", b"01", b"02", b"03", b"04", b"05", b"06", b"07", b"08", b"09", b"10", b"11", b"12",
    b"13", b"14", b"15",
];
const PROMPT_BITS: u32 = 0o444;
const ROM_BITS: u32 = 0o555;

/// One prompt as it lies in the part: its length, then its bytes.
pub fn laid(prompt: &[u8]) -> Vec<u8> {
    [&(prompt.len() as u16).to_le_bytes(), prompt].concat()
}

/// The prompts of a sound part, in turn.
pub fn prompts(rom: &[u8]) -> impl Iterator<Item = &[u8]> {
    let mut rest = rom;
    std::iter::from_fn(move || {
        let &[low, high, ref after @ ..] = rest else {
            return None;
        };
        let length = u16::from_le_bytes([low, high]);
        let (prompt, behind) = after.split_at_checked(length.into())?;
        rest = behind;
        Some(prompt)
    })
}

/// The names that calls see in a directory and that are not stored there, each with its number.
pub fn shown(tables: &Tables, directory: usize) -> impl Iterator<Item = (&[u8], usize)> {
    let in_root = (directory == ROOT).then_some((NAME, ROM));
    let there = if directory == ROM {
        prompts(&tables.rom).count()
    } else {
        0
    };
    let in_rom = PROMPT_NAMES.into_iter().zip(ROM_FIRST..).take(there);
    in_root.into_iter().chain(in_rom)
}

pub fn is_stored(slot: usize) -> bool {
    slot < SLOTS
}

/// A file's record as calls see it, of a slot or of what is in read-only memory.
pub fn file(tables: &Tables, slot: usize) -> [u32; FILE_WIDTH] {
    let (kind, bits, length) = match slot {
        0..SLOTS => return *tables.file(slot),
        ROM => (DIRECTORY, ROM_BITS, prompts(&tables.rom).count()),
        _ => {
            let prompt = prompts(&tables.rom).nth(slot - ROM_FIRST);
            (PLAIN, PROMPT_BITS, prompt.map_or(0, <[u8]>::len))
        }
    };
    [kind, 0, 0, bits, 0, length as u32, 1, 0]
}

pub fn is_kind(tables: &Tables, slot: usize, kind: u32) -> bool {
    file(tables, slot)[FILE_KIND] == kind
}
