//! Writes the description of a sound store: nothing that follows from the lines before.

use super::{lowest_free, words, FIRST_LINE};
use crate::bits;
use crate::ranges::label_pairs;
use crate::text;
use mritvelja::layout::*;
use mritvelja::Tables;

/// The description of a store, which must be sound: its directories are walked as a tree.
pub fn write(tables: &Tables) -> String {
    let mut lines = vec![FIRST_LINE.to_string()];
    lines.extend(processes(tables));
    lines.extend(rights(tables));
    lines.extend(transitions(tables));
    let mut files = Files {
        tables,
        lines,
        paths: vec![None; SLOTS],
    };
    files.add_all();
    let Files {
        mut lines, paths, ..
    } = files;
    lines.extend(open_files(tables, &paths));
    lines.extend(descriptors(tables));
    lines.join("\n") + "\n"
}

fn processes(tables: &Tables) -> impl Iterator<Item = String> + '_ {
    tables.processes_in_use().map(|process| {
        let record = tables.process(process);
        let [user, group, label] =
            [PROCESS_USER, PROCESS_GROUP, PROCESS_LABEL].map(|at| record[at]);
        format!("process {process} user {user} group {group} label {label}")
    })
}

fn rights(tables: &Tables) -> impl Iterator<Item = String> + '_ {
    label_pairs().filter_map(|(process, file)| {
        let rights = tables.rights(process, file);
        (rights != 0).then(|| {
            let rights = text::rights(u32::from(rights), ",");
            format!("rights {process} over {file} allow {rights}")
        })
    })
}

fn transitions(tables: &Tables) -> impl Iterator<Item = String> + '_ {
    label_pairs().filter_map(|(process, program)| {
        let label = tables.transition(process, program);
        (label != NO_TRANSITION).then(|| format!("transition {process} by {program} to {label}"))
    })
}

/// The lines of files, and the path by which each slot came first.
struct Files<'a> {
    tables: &'a Tables,
    lines: Vec<String>,
    paths: Vec<Option<Vec<u8>>>,
}

impl Files<'_> {
    fn add_all(&mut self) {
        self.lines
            .push(format!("directory / {}", self.record(ROOT)));
        self.paths[ROOT] = Some(b"/".to_vec());
        self.add_names(ROOT, b"");
        for slot in (0..SLOTS).filter(|&slot| self.paths[slot].is_none()) {
            if self.tables.is_kind(slot, PLAIN) {
                let line = format!("unnamed {slot} {}{}", self.record(slot), self.data(slot));
                self.lines.push(line);
            } else if self.tables.file(slot)[FILE_VERSION] != 0 {
                let version = self.tables.file(slot)[FILE_VERSION];
                self.lines.push(format!("free {slot} version {version}"));
            }
        }
    }

    /// What a directory names, and all below it.
    fn add_names(&mut self, directory: usize, prefix: &[u8]) {
        let entries: Vec<usize> = self.tables.dirents_in_use(directory).collect();
        for (at, &entry) in entries.iter().enumerate() {
            let name = self.tables.dirent_name(directory, entry);
            let path = [prefix, b"/", name].concat();
            // Earlier entries have lower numbers, so that they are all below it or leave a gap.
            let place = match lowest_free(DIRENTS, |entry| entries[..at].contains(&entry)) {
                Some(free) if free == entry => String::new(),
                _ => format!(" entry {entry}"),
            };
            let slot = self.tables.dirent_slot(directory, entry);
            self.add_name(slot, &path, &place);
            if self.tables.is_kind(slot, DIRECTORY) {
                self.add_names(slot, &path);
            }
        }
    }

    fn add_name(&mut self, slot: usize, path: &[u8], place: &str) {
        let shown = words::path(path);
        let line = match &self.paths[slot] {
            Some(first) => format!("link {shown} to {}{place}", words::path(first)),
            None => {
                let record = self.record(slot);
                let wanted = match lowest_free(SLOTS, |slot| self.paths[slot].is_some()) {
                    Some(free) if free == slot => String::new(),
                    _ => format!(" slot {slot}"),
                };
                match self.tables.file(slot)[FILE_KIND] {
                    DIRECTORY => format!("directory {shown} {record}{wanted}{place}"),
                    LINK => {
                        let target = words::path(self.tables.bytes(slot));
                        format!("symlink {shown} to {target} {record}{wanted}{place}")
                    }
                    _ => format!("file {shown} {record}{wanted}{place}{}", self.data(slot)),
                }
            }
        };
        self.lines.push(line);
        self.paths[slot].get_or_insert_with(|| path.to_vec());
    }

    fn record(&self, slot: usize) -> String {
        let record = self.tables.file(slot);
        let [owner, group, label] = [FILE_OWNER, FILE_GROUP, FILE_LABEL].map(|at| record[at]);
        let bits = match record[FILE_KIND] {
            LINK => String::new(),
            _ => format!(" bits {}", bits::word(record[FILE_BITS])),
        };
        let version = match record[FILE_VERSION] {
            0 => String::new(),
            version => format!(" version {version}"),
        };
        format!("owner {owner} group {group}{bits} label {label}{version}")
    }

    fn data(&self, slot: usize) -> String {
        format!(" data {}", text::quote(self.tables.bytes(slot)))
    }
}

fn open_files<'a>(
    tables: &'a Tables,
    paths: &'a [Option<Vec<u8>>],
) -> impl Iterator<Item = String> + 'a {
    tables.open_files_in_use().map(|number| {
        let record = tables.open_file(number);
        let slot = record[OPEN_SLOT] as usize;
        let file = match &paths[slot] {
            Some(path) => format!("path {}", words::path(path)),
            None => format!("slot {slot}"),
        };
        let offset = match record[OPEN_OFFSET] {
            0 => String::new(),
            offset => format!(" offset {offset}"),
        };
        let mode = text::mode(record[OPEN_MODE]).expect("a sound store's mode has a word");
        format!("open {number} {file} mode {mode}{offset}")
    })
}

fn descriptors(tables: &Tables) -> impl Iterator<Item = String> + '_ {
    tables.processes_in_use().flat_map(|process| {
        let held = tables.descriptors(process).iter().enumerate();
        held.filter(|(_, &word)| word != 0)
            .map(move |(descriptor, word)| {
                format!(
                    "descriptor {descriptor} process {process} open {}",
                    word - 1
                )
            })
    })
}
