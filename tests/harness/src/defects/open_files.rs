//! The clauses on what keeps a file, open files and references.

use super::pick::*;
use super::Break;
use crate::chance::Chance;
use mritvelja::layout::*;
use mritvelja::Tables;

const KEPT: &str = "each plain file named or open";
const ON_PLAIN: &str = "open entries only on plain files";
const REFERRED: &str = "references equal to the descriptors counted";

pub const DEFECTS: &[(&str, &str, Break)] = &[
    (KEPT, "plain file neither named nor open", kept_by_nothing),
    (ON_PLAIN, "open directory", open_directory),
    (ON_PLAIN, "open free slot", open_free),
    (ON_PLAIN, "open link", open_link),
    (REFERRED, "one reference too many", one_more),
    (REFERRED, "one reference too few", one_less),
    (REFERRED, "open file that nobody holds", nobody_holds),
    (REFERRED, "descriptor on a free open file", holds_free),
];

fn kept_by_nothing(tables: &mut Tables, chance: &mut Chance) -> Option<()> {
    let slot = slot_of(tables, chance, FREE)?;
    tables.file_mut(slot)[FILE_KIND] = PLAIN;
    Some(())
}

fn open_kind(tables: &mut Tables, chance: &mut Chance, kind: u32) -> Option<()> {
    let slot = slot_of(tables, chance, kind)?;
    open_by_someone(tables, chance, slot)?;
    Some(())
}

fn open_directory(tables: &mut Tables, chance: &mut Chance) -> Option<()> {
    open_kind(tables, chance, DIRECTORY)
}

fn open_free(tables: &mut Tables, chance: &mut Chance) -> Option<()> {
    open_kind(tables, chance, FREE)
}

fn open_link(tables: &mut Tables, chance: &mut Chance) -> Option<()> {
    open_kind(tables, chance, LINK)
}

fn one_more(tables: &mut Tables, chance: &mut Chance) -> Option<()> {
    let open_file = open_file(tables, chance, true)?;
    let references = tables.open_file(open_file)[OPEN_REFERENCES];
    let change = chance.pick(&[1, 2, 256, 65_536]);
    tables.open_file_mut(open_file)[OPEN_REFERENCES] = references + change;
    Some(())
}

fn one_less(tables: &mut Tables, chance: &mut Chance) -> Option<()> {
    let open_file = open_file(tables, chance, true)?;
    let references = tables.open_file(open_file)[OPEN_REFERENCES];
    tables.open_file_mut(open_file)[OPEN_REFERENCES] = references - 1;
    Some(())
}

fn nobody_holds(tables: &mut Tables, chance: &mut Chance) -> Option<()> {
    let slot = slot_of(tables, chance, PLAIN)?;
    let open_file = open_file(tables, chance, false)?;
    tables.open_file_mut(open_file)[OPEN_SLOT] = slot as u32;
    tables.open_file_mut(open_file)[OPEN_MODE] = 1;
    let references = chance.pick(&[0, 1]);
    tables.open_file_mut(open_file)[OPEN_REFERENCES] = references;
    Some(())
}

fn holds_free(tables: &mut Tables, chance: &mut Chance) -> Option<()> {
    let open_file = open_file(tables, chance, false)?;
    let (process, descriptor) = free_descriptor(tables, chance)?;
    tables.descriptors_mut(process)[descriptor] = open_file as u32 + 1;
    Some(())
}
