//! The clauses of the root, of the directories' names and of their way to the root.

use super::names;
use mritvelja::layout::*;
use mritvelja::Tables;

pub fn root(tables: &Tables) -> Option<String> {
    let record = tables.file(ROOT);
    if record[FILE_KIND] != DIRECTORY {
        return Some(format!(
            "slot 0: kind is {}, not {DIRECTORY}, a directory",
            record[FILE_KIND]
        ));
    }
    (record[FILE_LINKS] != 0).then(|| format!("slot 0: links is {}, not 0", record[FILE_LINKS]))
}

pub fn named_once_and_not_too_deep(tables: &Tables) -> Option<String> {
    not_named_once(tables).or_else(|| too_deep(tables))
}

fn not_named_once(tables: &Tables) -> Option<String> {
    below_root(tables).find_map(|slot| {
        let entries = names::dirents_of(tables, slot).count();
        (entries != 1).then(|| {
            format!("slot {slot}: a directory; the directory entries that name it are {entries}")
        })
    })
}

fn too_deep(tables: &Tables) -> Option<String> {
    below_root(tables).find_map(|slot| {
        let depth = depth(tables, slot).filter(|&depth| depth > NAMES)?;
        Some(format!("slot {slot}: a directory {depth} names deep"))
    })
}

pub fn not_reached(tables: &Tables) -> Option<String> {
    let slot = below_root(tables).find(|&slot| depth(tables, slot).is_none())?;
    Some(format!(
        "slot {slot}: a directory from which no way leads up to the root"
    ))
}

fn below_root(tables: &Tables) -> impl Iterator<Item = usize> + '_ {
    tables.directories().filter(|&slot| slot != ROOT)
}

/// How many names lead to a directory; nothing if none do. Each is named once.
fn depth(tables: &Tables, directory: usize) -> Option<usize> {
    let mut at = directory;
    for depth in 0..SLOTS {
        if at == ROOT {
            return Some(depth);
        }
        (at, _) = names::dirents_of(tables, at).next()?;
    }
    None
}
