//! The files: those in the tree by their full paths, and those without a name.

use super::part;
use crate::bits;
use crate::seen::{self, ROM};
use crate::text;
use mritvelja::layout::*;
use mritvelja::Tables;

/// Every path of the tree with its slot: a directory, then what it names in byte order. /rom is
/// among them where it has prompts.
pub fn paths(tables: &Tables) -> Vec<(String, usize)> {
    let mut paths = vec![("/".into(), ROOT)];
    add_names(tables, ROOT, "", &mut paths);
    paths
}

fn add_names(tables: &Tables, directory: usize, prefix: &str, paths: &mut Vec<(String, usize)>) {
    for (name, slot) in seen::names(tables, directory) {
        if slot == ROM && tables.rom.is_empty() {
            continue;
        }
        let path = format!("{prefix}/{}", text::readable(&name));
        paths.push((path.clone(), slot));
        if seen::is_kind(tables, slot, DIRECTORY) {
            add_names(tables, slot, &path, paths);
        }
    }
}

pub fn lines(tables: &Tables, paths: &[(String, usize)]) -> Vec<String> {
    let used = (0..SLOTS)
        .filter(|&slot| !tables.is_kind(slot, FREE))
        .count();
    let prompts = match seen::names(tables, ROM).len() {
        0 => String::new(),
        count => format!(", and {}", text::count(count as u64, "prompt", "prompts")),
    };
    let heading = format!("Files, {used} of {SLOTS} slots in use{prompts}");
    let lines = paths.iter().map(|&(ref path, slot)| {
        let number = match slot {
            ROM => "no slot".into(),
            _ => format!("slot {slot}"),
        };
        let (what, fields) = (what(tables, slot), fields(&seen::record(tables, slot)));
        format!("{path}: {what}, {number}, {fields}")
    });
    part(&heading, lines.collect())
}

pub fn unnamed_lines(tables: &Tables) -> Vec<String> {
    let lines = tables.unnamed_files().map(|slot| {
        let record = tables.file(slot);
        format!("Slot {slot}: {}, {}", kind(record), fields(record))
    });
    part("Files open without a name", lines.collect())
}

/// What a slot has in it: its kind, and of a link where it leads.
fn what(tables: &Tables, slot: usize) -> String {
    let kind = kind(&seen::record(tables, slot));
    match seen::is_kind(tables, slot, LINK) {
        true => format!("{kind} to {}", text::readable(tables.bytes(slot))),
        false => kind.into(),
    }
}

pub fn kind(record: &[u32; FILE_WIDTH]) -> &'static str {
    match record[FILE_KIND] {
        DIRECTORY => "directory",
        LINK => "link",
        _ => "plain file",
    }
}

pub fn fields(record: &[u32; FILE_WIDTH]) -> String {
    format!(
        "owner {}, group {}, bits {} ({}), label {}, length {}, links {}, version {}",
        record[FILE_OWNER],
        record[FILE_GROUP],
        record[FILE_BITS],
        bits::words(record[FILE_BITS]),
        record[FILE_LABEL],
        record[FILE_LENGTH],
        record[FILE_LINKS],
        record[FILE_VERSION]
    )
}
