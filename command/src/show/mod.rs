//! `show`: a sound store in lines that a person and a screen reader can read.

mod policy;
mod processes;
mod tree;

pub use tree::{fields, kind, paths};

use crate::arguments::{Form, Store};
use crate::check;
use crate::failure::Failure;
use crate::held;
use crate::output;
use crate::store_json::{self, Detail};
use mritvelja::Tables;

pub fn show(store: &Store, form: Form) -> Result<(), Failure> {
    let tables = held::read(store)?;
    // Only of a sound store is it known that its directories are a tree.
    check::require_sound(&store.path, &tables)?;
    match form {
        Form::Text => output::print_line(lines(&tables).join("\n")),
        Form::Json => output::print_line(store_json::store(&tables, Detail::Shown)),
    }
}

/// The whole store, an empty line between its parts.
fn lines(tables: &Tables) -> Vec<String> {
    let paths = paths(tables);
    let mut lines = Vec::new();
    for part in [
        tree::lines(tables, &paths),
        tree::unnamed_lines(tables),
        processes::open_file_lines(tables, &paths),
        processes::lines(tables),
        policy::rights_lines(tables),
        policy::transition_lines(tables),
    ] {
        if !lines.is_empty() {
            lines.push(String::new());
        }
        lines.extend(part);
    }
    lines
}

/// A heading that says `none` where nothing follows.
fn part(heading: &str, lines: Vec<String>) -> Vec<String> {
    if lines.is_empty() {
        return vec![format!("{heading}: none")];
    }
    let mut part = vec![format!("{heading}:")];
    part.extend(lines);
    part
}

#[cfg(test)]
mod tests {
    use super::*;
    use mritvelja::layout::*;
    use mritvelja::test_console;

    #[test]
    fn the_test_console_is_shown() {
        let shown = lines(&test_console()).join("\n");
        assert_eq!(shown, include_str!("console.expected").trim_end());
    }

    #[test]
    fn prompts_are_shown_where_there_are_any() {
        let mut tables = test_console();
        tables.rom = b"\x05\0hello\0\0".to_vec();
        *tables.open_file_mut(0) = [ROM_FIRST as u32, 1, 3, 1];
        tables.process_mut(2)[PROCESS_DESCRIPTOR] = 1;
        tables.set_dirent(ROOT, 1, b"zone", 3);
        assert!(mritvelja::sound(&tables));
        let lines = lines(&tables);
        assert_eq!(lines[0], "Files, 4 of 128 slots in use, and 2 prompts:");
        for (line, expected) in lines[4..].iter().zip([
            "/rom: directory, no slot, owner 0, group 0, bits 365 (owner read execute, group read execute, others read execute), label 0, length 2, links 1, version 0",
            "/rom/00: plain file, slot 128, owner 0, group 0, bits 292 (owner read, group read, others read), label 0, length 5, links 1, version 0",
            "/rom/01: plain file, slot 129, owner 0, group 0, bits 292 (owner read, group read, others read), label 0, length 0, links 1, version 0",
        ]) {
            assert_eq!(line, expected);
        }
        assert!(lines[7].starts_with("/zone: plain file, slot 3, "));
        let open = "Open file 0: slot 128, /rom/00; mode 1 (read), offset 3, references 1";
        assert!(lines.iter().any(|line| line == open), "{lines:#?}");
    }

    #[test]
    fn what_is_open_and_what_has_no_name_is_shown() {
        let mut tables = test_console();
        *tables.file_mut(4) = [PLAIN, 20, 30, 0o061, 1, 2, 0, 9];
        tables.block_mut(4)[..2].copy_from_slice(b"hi");
        *tables.open_file_mut(0) = [4, 3, 1, 2];
        *tables.open_file_mut(1) = [2, 4, 0, 1];
        tables.process_mut(2)[PROCESS_DESCRIPTOR] = 1;
        tables.process_mut(2)[PROCESS_DESCRIPTOR + 7] = 1;
        tables.process_mut(1)[PROCESS_DESCRIPTOR] = 2;
        tables.set_transition(1, 3, 4);
        tables.set_dirent(1, 0, b"a\\ \x80", 2);
        *tables.file_mut(5) = [LINK, 20, 1, 0, 0, 4, 1, 6];
        tables.block_mut(5)[..4].copy_from_slice(b"//\x1b\\");
        tables.set_dirent(1, 1, b"l", 5);
        tables.file_mut(1)[FILE_LENGTH] = 2;
        assert!(mritvelja::sound(&tables));
        let lines = lines(&tables);
        for line in [
            "/fares/a\\x5c \\x80: plain file, slot 2, owner 10, group 1, bits 484 (owner read write execute, group read, others read), label 0, length 5, links 1, version 0",
            "/fares/l: link to //\\x1b\\x5c, slot 5, owner 20, group 1, bits 0 (owner none, group none, others none), label 0, length 4, links 1, version 6",
            "Slot 4: plain file, owner 20, group 30, bits 49 (owner none, group read write, others execute), label 1, length 2, links 0, version 9",
            "Open file 0: slot 4, which has no name; mode 3 (both), offset 1, references 2",
            "Open file 1: slot 2, /fares/a\\x5c \\x80; mode 4 (append), offset 0, references 1",
            "Process 2: user 20, group 1, label 2; descriptor 0 holds open file 0; descriptor 7 holds open file 0",
            "Process label 1 by program label 3: to label 4",
        ] {
            assert!(lines.iter().any(|shown| shown == line), "{line}\n{lines:#?}");
        }
    }
}
