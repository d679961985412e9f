//! A sound store as JSON: what `show` prints, and with the bytes of files what `describe` does.

use crate::bits;
use crate::json::Json;
use crate::ranges::label_pairs;
use crate::seen::{self, ROM};
use crate::show::paths;
use crate::text;
use mritvelja::layout::*;
use mritvelja::Tables;

/// Whether the bytes of files, and what only a store made again needs, are in it.
#[derive(Clone, Copy, PartialEq, Eq)]
pub enum Detail {
    Shown,
    Whole,
}

pub fn store(tables: &Tables, detail: Detail) -> Json {
    let mut fields = vec![
        ("slots", SLOTS.into()),
        ("files", files(tables, detail)),
        ("open_files", open_files(tables)),
        ("processes", processes(tables)),
        ("rights", rights(tables)),
        ("transitions", transitions(tables)),
    ];
    fields.push(match detail {
        Detail::Shown => ("prompts", prompts(tables)),
        Detail::Whole => ("free", free(tables)),
    });
    Json::Object(fields)
}

/// Every slot in use, with all of its paths.
fn files(tables: &Tables, detail: Detail) -> Json {
    let paths = paths(tables);
    let in_use = (0..SLOTS).filter(|&slot| !tables.is_kind(slot, FREE));
    let files = in_use.map(|slot| {
        let named = paths.iter().filter(|(_, named)| *named == slot);
        let named = named.map(|(path, _)| path.as_str().into()).collect();
        file(tables, slot, named, detail)
    });
    files.collect()
}

fn file(tables: &Tables, slot: usize, paths: Json, detail: Detail) -> Json {
    let record = tables.file(slot);
    let mut fields = vec![
        ("slot", slot.into()),
        ("paths", paths),
        ("kind", kind(record[FILE_KIND]).into()),
        ("owner", record[FILE_OWNER].into()),
        ("group", record[FILE_GROUP].into()),
        ("bits", bits_object(record[FILE_BITS])),
        ("label", record[FILE_LABEL].into()),
        ("length", record[FILE_LENGTH].into()),
        ("links", record[FILE_LINKS].into()),
        ("version", record[FILE_VERSION].into()),
    ];
    match record[FILE_KIND] {
        DIRECTORY => fields.push(("entries", entries(tables, slot))),
        LINK => fields.push(("target", text::readable(tables.bytes(slot)).into())),
        _ if detail == Detail::Whole => fields.push(("data", text::hex(tables.bytes(slot)).into())),
        _ => {}
    }
    Json::Object(fields)
}

fn kind(kind: u32) -> &'static str {
    match kind {
        DIRECTORY => "directory",
        LINK => "link",
        _ => "file",
    }
}

fn entries(tables: &Tables, directory: usize) -> Json {
    let entries = tables.dirents_in_use(directory).map(|entry| {
        Json::Object(vec![
            ("entry", entry.into()),
            (
                "name",
                text::readable(tables.dirent_name(directory, entry)).into(),
            ),
            ("slot", tables.dirent_slot(directory, entry).into()),
        ])
    });
    entries.collect()
}

/// The rights of each class.
fn bits_object(bits: u32) -> Json {
    let classes = bits::classes(bits).map(|(class, rights)| (class, rights_list(rights)));
    Json::Object(classes.into())
}

fn rights_list(rights: u32) -> Json {
    text::right_words(rights)
        .into_iter()
        .map(Json::from)
        .collect()
}

fn open_files(tables: &Tables) -> Json {
    let open_files = tables.open_files_in_use().map(|number| {
        let record = tables.open_file(number);
        let mode = text::mode(record[OPEN_MODE]).expect("a sound store's mode has a word");
        Json::Object(vec![
            ("open_file", number.into()),
            ("slot", record[OPEN_SLOT].into()),
            ("mode", mode.into()),
            ("offset", record[OPEN_OFFSET].into()),
            ("references", record[OPEN_REFERENCES].into()),
        ])
    });
    open_files.collect()
}

fn processes(tables: &Tables) -> Json {
    let processes = tables.processes_in_use().map(|process| {
        let record = tables.process(process);
        let held = tables.descriptors(process).iter().enumerate();
        let held = held
            .filter(|(_, &word)| word != 0)
            .map(|(descriptor, word)| {
                Json::Object(vec![
                    ("descriptor", descriptor.into()),
                    ("open_file", (word - 1).into()),
                ])
            });
        Json::Object(vec![
            ("process", process.into()),
            ("user", record[PROCESS_USER].into()),
            ("group", record[PROCESS_GROUP].into()),
            ("label", record[PROCESS_LABEL].into()),
            ("descriptors", held.collect()),
        ])
    });
    processes.collect()
}

fn rights(tables: &Tables) -> Json {
    let held = label_pairs().filter(|&(process, file)| tables.rights(process, file) != 0);
    let rights = held.map(|(process, file)| {
        Json::Object(vec![
            ("process_label", process.into()),
            ("file_label", file.into()),
            ("rights", rights_list(tables.rights(process, file).into())),
        ])
    });
    rights.collect()
}

fn transitions(tables: &Tables) -> Json {
    let there = label_pairs()
        .filter(|&(process, program)| tables.transition(process, program) != NO_TRANSITION);
    let transitions = there.map(|(process, program)| {
        Json::Object(vec![
            ("process_label", process.into()),
            ("program_label", program.into()),
            (
                "label",
                u32::from(tables.transition(process, program)).into(),
            ),
        ])
    });
    transitions.collect()
}

/// The prompts of the factory part, which `describe` is not lent.
fn prompts(tables: &Tables) -> Json {
    let prompts = seen::names(tables, ROM).into_iter().map(|(name, slot)| {
        Json::Object(vec![
            ("slot", slot.into()),
            ("path", format!("/rom/{}", text::readable(&name)).into()),
            ("length", seen::bytes(tables, slot).len().into()),
        ])
    });
    prompts.collect()
}

/// The slots not in use whose version is not 0.
fn free(tables: &Tables) -> Json {
    let free = (0..SLOTS)
        .filter(|&slot| tables.is_kind(slot, FREE) && tables.file(slot)[FILE_VERSION] != 0);
    let free = free.map(|slot| {
        Json::Object(vec![
            ("slot", slot.into()),
            ("version", tables.file(slot)[FILE_VERSION].into()),
        ])
    });
    free.collect()
}
