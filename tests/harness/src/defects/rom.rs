//! The clauses on the factory part, open files on its prompts, and the name /rom.

use super::pick::*;
use super::Break;
use crate::chance::Chance;
use crate::rom::{self, laid, ROM};
use mritvelja::layout::*;
use mritvelja::Tables;

const WHOLE: &str = "a part neither short nor overlong";
const LENGTH: &str = "a prompt of at most 512 bytes";
const OPEN: &str = "open entries on prompts in mode 1, none past the last";
const STORED: &str = "each place naming a stored slot";
const RESERVED: &str = "no \"rom\" stored in the root";

pub const DEFECTS: &[(&str, &str, Break)] = &[
    (WHOLE, "half a length at the end", half_length),
    (WHOLE, "last prompt cut short", cut_short),
    (WHOLE, "bytes after the sixteenth prompt", overlong),
    (WHOLE, "seventeen prompts", seventeen),
    (LENGTH, "prompt over 512 bytes", over_long_prompt),
    (OPEN, "open prompt past the last", past_last),
    (OPEN, "open /rom", open_rom),
    (OPEN, "open prompt in another mode", other_mode),
    (OPEN, "offset over 512 in a prompt", offset),
    (STORED, "directory entry names a prompt", names_prompt),
    (STORED, "directory entry names /rom", names_rom),
    (RESERVED, "file named \"rom\" in the root", named_rom),
];

/// How many prompts the part has.
fn count(tables: &Tables) -> usize {
    rom::prompts(&tables.rom).count()
}

/// Empty prompts behind those there are, so many in all.
fn fill(tables: &mut Tables, prompts: usize) {
    for _ in count(tables)..prompts {
        tables.rom.extend(laid(b""));
    }
}

/// One more prompt, of which a byte or more is missing, where there may be one more.
fn half_length(tables: &mut Tables, chance: &mut Chance) -> Option<()> {
    if count(tables) == PROMPTS {
        return None;
    }
    tables.rom.push(chance.pick(&[0, 1, 2, 255]));
    Some(())
}

fn cut_short(tables: &mut Tables, chance: &mut Chance) -> Option<()> {
    if count(tables) == PROMPTS {
        return None;
    }
    let length = chance.pick(&[1, 2, 5, 256, BLOCK]);
    let missing = chance.pick(&[1, length]);
    let prompt = laid(&chance.bytes(length));
    tables.rom.extend(&prompt[..prompt.len() - missing]);
    Some(())
}

fn overlong(tables: &mut Tables, chance: &mut Chance) -> Option<()> {
    fill(tables, PROMPTS);
    let more = chance.pick(&[1, 1, 2, 3, 100]);
    let byte = chance.pick(&[0, 1, 255]);
    tables.rom.extend(vec![byte; more]);
    Some(())
}

fn seventeen(tables: &mut Tables, chance: &mut Chance) -> Option<()> {
    fill(tables, PROMPTS);
    let length = chance.pick(&[0, 0, 1, 40]);
    tables.rom.extend(laid(&chance.bytes(length)));
    Some(())
}

/// The prompt is whole, and there may be one more.
fn over_long_prompt(tables: &mut Tables, chance: &mut Chance) -> Option<()> {
    if count(tables) == PROMPTS {
        return None;
    }
    let length = chance.pick(&[BLOCK + 1, BLOCK + 1, BLOCK + 2, BLOCK + 256, 1_024, 4_096]);
    tables.rom.extend(laid(&chance.bytes(length)));
    Some(())
}

fn past_last(tables: &mut Tables, chance: &mut Chance) -> Option<()> {
    let past = chance.pick_where(PROMPTS, |prompt| prompt >= count(tables))?;
    let first = count(tables);
    let prompt = chance.pick(&[first, past]);
    open_by_someone(tables, chance, ROM_FIRST + prompt)?;
    Some(())
}

fn open_rom(tables: &mut Tables, chance: &mut Chance) -> Option<()> {
    fill(tables, chance.pick(&[0, PROMPTS]));
    open_by_someone(tables, chance, ROM)?;
    Some(())
}

/// A prompt that is there, opened in one more open file.
fn open_prompt(tables: &mut Tables, chance: &mut Chance) -> Option<usize> {
    fill(tables, 1);
    let prompt = chance.below(count(tables));
    open_by_someone(tables, chance, ROM_FIRST + prompt)
}

fn other_mode(tables: &mut Tables, chance: &mut Chance) -> Option<()> {
    let open_file = open_prompt(tables, chance)?;
    tables.open_file_mut(open_file)[OPEN_MODE] = chance.pick(&[0, 2, 3, 4, 5, 257]);
    Some(())
}

fn offset(tables: &mut Tables, chance: &mut Chance) -> Option<()> {
    let open_file = open_prompt(tables, chance)?;
    tables.open_file_mut(open_file)[OPEN_OFFSET] = over(chance, BLOCK as u32);
    Some(())
}

fn names_prompt(tables: &mut Tables, chance: &mut Chance) -> Option<()> {
    fill(tables, 1);
    let prompt = chance.below(count(tables));
    name_number(tables, chance, ROM_FIRST + prompt)
}

fn names_rom(tables: &mut Tables, chance: &mut Chance) -> Option<()> {
    name_number(tables, chance, ROM)
}

/// What the root names gets this name, of whatever kind it is.
fn named_rom(tables: &mut Tables, chance: &mut Chance) -> Option<()> {
    let named = |dirent| tables.dirent_slot(ROOT, dirent) != 0;
    let dirent = chance.pick_where(DIRENTS, named)?;
    let slot = tables.dirent_slot(ROOT, dirent);
    tables.set_dirent(ROOT, dirent, rom::NAME, slot);
    Some(())
}
