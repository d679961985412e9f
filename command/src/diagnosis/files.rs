//! The clauses of lengths, and of plain files without a name.

use mritvelja::layout::*;
use mritvelja::Tables;

pub fn wrong_length(tables: &Tables) -> Option<String> {
    (0..SLOTS).find_map(|slot| {
        let record = tables.file(slot);
        let length = record[FILE_LENGTH] as usize;
        match record[FILE_KIND] {
            PLAIN if length > BLOCK => {
                Some(format!("slot {slot}: a plain file of length {length}"))
            }
            DIRECTORY => {
                let names = tables.dirents_in_use(slot).count();
                (length != names).then(|| {
                    format!("slot {slot}: a directory of length {length}, but its names counted are {names}")
                })
            }
            _ => None,
        }
    })
}

pub fn neither_named_nor_open(tables: &Tables) -> Option<String> {
    let slot = tables.unnamed_files().find(|&slot| !tables.is_open(slot))?;
    Some(format!(
        "slot {slot}: a plain file that no directory entry names and no open file has"
    ))
}
