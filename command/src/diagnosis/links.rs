//! The clause of symbolic links: each part of it has words of its own.

use super::names;
use crate::path;
use crate::text;
use mritvelja::layout::*;
use mritvelja::Tables;

pub fn not_a_link(tables: &Tables) -> Option<String> {
    let mut links = (0..SLOTS).filter(|&slot| tables.is_kind(slot, LINK));
    links.find_map(|slot| {
        let why = not_named_once(tables, slot)
            .or_else(|| with_bits(tables, slot))
            .or_else(|| wrong_text(tables, slot))
            .or_else(|| past_text(tables, slot))?;
        Some(format!("slot {slot}: a link{why}"))
    })
}

fn not_named_once(tables: &Tables, slot: usize) -> Option<String> {
    let entries = names::dirents_of(tables, slot).count();
    (entries != 1).then(|| format!("; the directory entries that name it are {entries}"))
}

fn with_bits(tables: &Tables, slot: usize) -> Option<String> {
    let bits = tables.file(slot)[FILE_BITS];
    (bits != 0).then(|| format!(" whose bits are {bits}, not 0"))
}

/// A length that no path has is told alone: the text may then be the whole block.
fn wrong_text(tables: &Tables, slot: usize) -> Option<String> {
    let length = tables.file(slot)[FILE_LENGTH];
    if !(1..=PATH as u32).contains(&length) {
        return Some(format!(" of length {length}, not 1 to {PATH}"));
    }
    let bytes = tables.bytes(slot);
    let why = path::malformed(bytes)?;
    let shown = text::readable(bytes);
    Some(format!(
        " whose text \"{shown}\" is not a valid path: {why}"
    ))
}

fn past_text(tables: &Tables, slot: usize) -> Option<String> {
    let length = tables.file(slot)[FILE_LENGTH] as usize;
    let at = (length..BLOCK).find(|&at| tables.block(slot)[at] != 0)?;
    Some(format!(" of length {length} whose byte {at} is not 0"))
}
