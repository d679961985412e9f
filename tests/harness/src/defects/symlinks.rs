//! The clause on symbolic links: each part of it alone.

use super::pick::*;
use super::Break;
use crate::building::{add_to_file, set_text};
use crate::chance::Chance;
use mritvelja::layout::*;
use mritvelja::Tables;

const ONCE: &str = "a link named once";
const BITS: &str = "a link's bits 0";
const TEXT: &str = "a link's text a valid path";
const LENGTH: &str = "a link's text of the record's length";
const ZERO: &str = "a link's text, then 0";

pub const DEFECTS: &[(&str, &str, Break)] = &[
    (ONCE, "link named twice", named_twice),
    (ONCE, "link not named", not_named),
    (ONCE, "link with another count of names", miscounted),
    (BITS, "link with bits", with_bits),
    (TEXT, "text that does not start with a slash", relative),
    (TEXT, "text that ends in a slash", ends_in_slash),
    (TEXT, "text with a name of dots", with_dots),
    (TEXT, "text with byte 0", with_zero),
    (TEXT, "text with a name of 15 bytes", with_long_name),
    (TEXT, "text of 9 names", nine_names),
    (TEXT, "text of no bytes", no_bytes),
    (TEXT, "text over 64 bytes", too_long),
    (LENGTH, "link's length one less", one_less),
    (LENGTH, "link's length more than its text", more),
    (LENGTH, "link's length over 512", over_block),
    (ZERO, "byte after a link's text", byte_after),
];

fn named_twice(tables: &mut Tables, chance: &mut Chance) -> Option<()> {
    let slot = slot_of(tables, chance, LINK)?;
    name_again(tables, chance, slot)
}

fn not_named(tables: &mut Tables, chance: &mut Chance) -> Option<()> {
    let slot = slot_of(tables, chance, FREE)?;
    tables.file_mut(slot)[FILE_KIND] = LINK;
    set_text(tables, slot, b"/x");
    Some(())
}

fn miscounted(tables: &mut Tables, chance: &mut Chance) -> Option<()> {
    miscount(tables, chance, (LINK, FILE_LINKS), &[-1, 1, 256, 65_536])
}

fn with_bits(tables: &mut Tables, chance: &mut Chance) -> Option<()> {
    let slot = slot_of(tables, chance, LINK)?;
    tables.file_mut(slot)[FILE_BITS] = chance.pick(&[1, 4, 8, 64, 256, 0o777]);
    Some(())
}

/// Another text, the length being right.
fn with_text(tables: &mut Tables, chance: &mut Chance, text: &[u8]) -> Option<()> {
    let slot = slot_of(tables, chance, LINK)?;
    set_text(tables, slot, text);
    Some(())
}

fn relative(tables: &mut Tables, chance: &mut Chance) -> Option<()> {
    let text: &[u8] = chance.pick(&[b"x".as_slice(), b"a/b", b"x/", b"\xff"]);
    with_text(tables, chance, text)
}

fn ends_in_slash(tables: &mut Tables, chance: &mut Chance) -> Option<()> {
    let text: &[u8] = chance.pick(&[b"/a/".as_slice(), b"/a//", b"//a/b/"]);
    with_text(tables, chance, text)
}

fn with_dots(tables: &mut Tables, chance: &mut Chance) -> Option<()> {
    let text: &[u8] = chance.pick(&[b"/.".as_slice(), b"/..", b"/a/../b", b"/./a"]);
    with_text(tables, chance, text)
}

fn with_zero(tables: &mut Tables, chance: &mut Chance) -> Option<()> {
    let text: &[u8] = chance.pick(&[b"/a\0b".as_slice(), b"/\0", b"\0/a", b"/a/\0"]);
    with_text(tables, chance, text)
}

fn with_long_name(tables: &mut Tables, chance: &mut Chance) -> Option<()> {
    let text: &[u8] = chance.pick(&[b"/fifteen--bytes!".as_slice(), b"/a/fifteen--bytes!/b"]);
    with_text(tables, chance, text)
}

fn nine_names(tables: &mut Tables, chance: &mut Chance) -> Option<()> {
    with_text(tables, chance, b"/a/b/c/d/e/f/g/h/i")
}

fn no_bytes(tables: &mut Tables, chance: &mut Chance) -> Option<()> {
    with_text(tables, chance, b"")
}

/// Slashes alone, or before a name: a path but for its length.
fn too_long(tables: &mut Tables, chance: &mut Chance) -> Option<()> {
    let length = chance.pick(&[PATH + 1, PATH + 2, 128, 256, BLOCK]);
    let mut text = vec![b'/'; length];
    if chance.one_in(2) {
        text[length - 1] = b'a';
    }
    with_text(tables, chance, &text)
}

/// The last byte of the text then lies after it; the text may still be a path.
fn one_less(tables: &mut Tables, chance: &mut Chance) -> Option<()> {
    let slot = slot_of(tables, chance, LINK)?;
    add_to_file(tables, slot, FILE_LENGTH, -1);
    Some(())
}

fn more(tables: &mut Tables, chance: &mut Chance) -> Option<()> {
    miscount(tables, chance, (LINK, FILE_LENGTH), &[1, 2, 256, 65_536])
}

fn over_block(tables: &mut Tables, chance: &mut Chance) -> Option<()> {
    lengthen(tables, chance, LINK)
}

fn byte_after(tables: &mut Tables, chance: &mut Chance) -> Option<()> {
    let slot = slot_of(tables, chance, LINK)?;
    let length = tables.file(slot)[FILE_LENGTH] as usize;
    spoil(tables.block_mut(slot), length, chance)
}
