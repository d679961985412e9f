//! The clauses of the factory part: its form, the open files on its prompts, its name in the root.

use super::names;
use crate::rom;
use crate::text;
use mritvelja::layout::*;
use mritvelja::{modes, Tables};

pub fn not_a_part(tables: &Tables) -> Option<String> {
    rom::prompts(&tables.rom).err()
}

pub fn not_open_for_reading(tables: &Tables) -> Option<String> {
    let prompts = rom::prompts(&tables.rom).unwrap_or_default().len();
    tables.open_files_in_use().find_map(|open_file| {
        let record = tables.open_file(open_file);
        let (slot, mode) = (record[OPEN_SLOT] as usize, record[OPEN_MODE]);
        let prompt = slot.checked_sub(ROM_FIRST)?;
        let why = if mode != modes::READ.into() {
            format!("in mode {mode}, not {}", modes::READ)
        } else if prompt < prompts {
            return None;
        } else {
            past_the_last(prompts)
        };
        Some(format!(
            "open file {open_file}: slot {slot} is prompt {prompt}, {why}"
        ))
    })
}

fn past_the_last(prompts: usize) -> String {
    match prompts {
        0 => "but no factory part is given, or an empty one".into(),
        _ => format!(
            "but the factory part has {}",
            text::count(prompts as u64, "prompt", "prompts")
        ),
    }
}

pub fn stored(tables: &Tables) -> Option<String> {
    let mut entries = tables.dirents_in_use(ROOT);
    let entry = entries.find(|&entry| tables.dirent_name(ROOT, entry) == rom::NAME)?;
    Some(format!("{}: it has that name", names::at(ROOT, entry)))
}
