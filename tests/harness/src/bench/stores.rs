//! Stores of a known size and depth for the benchmark, and calls on them.

use super::mix::Scene;
use crate::building::{add_name, blank, set_text};
use crate::call::Call;
use mritvelja::layout::*;
use mritvelja::Tables;

/// Bytes in each file, and bytes that each call reads or writes.
pub const FILE_BYTES: usize = 128;
pub const CALL_BYTES: usize = 64;

/// A store with one process, user 0, that may do everything.
fn open_store() -> Tables {
    let mut tables = blank();
    tables.policy[..RIGHTS_SIZE].fill(7);
    tables.process_mut(0)[PROCESS_USED] = 1;
    tables
}

fn add_file(tables: &mut Tables, directory: usize, dirent: usize, name: &[u8], slot: usize) {
    let length = FILE_BYTES as u32;
    *tables.file_mut(slot) = [PLAIN, 0, 0, 0o777, 0, length, 0, 0];
    tables.block_mut(slot)[..FILE_BYTES].fill(7);
    add_name(tables, directory, dirent, name, slot);
}

fn add_directory(tables: &mut Tables, parent: usize, dirent: usize, name: &[u8], slot: usize) {
    *tables.file_mut(slot) = [DIRECTORY, 0, 0, 0o777, 0, 0, 0, 0];
    add_name(tables, parent, dirent, name, slot);
}

pub fn file_name(number: usize) -> String {
    format!("f{number:02}")
}

/// So many files, at most 16, in the directory /d.
pub fn one_directory(files: usize) -> Tables {
    let mut tables = open_store();
    add_directory(&mut tables, 0, 0, b"d", 1);
    for number in 0..files {
        add_file(
            &mut tables,
            1,
            number,
            file_name(number).as_bytes(),
            number + 2,
        );
    }
    tables
}

/// A store with so many slots in use beside the root: the file /f00 in the
/// root's last used entry, then directories of files where the root is full.
pub fn sized(slots: usize) -> Tables {
    let mut tables = open_store();
    let directories = slots.saturating_sub(DIRENTS).div_ceil(DIRENTS + 1);
    let in_root = slots.min(DIRENTS) - directories;
    for number in 0..directories {
        let name = format!("d{number}");
        add_directory(&mut tables, 0, number, name.as_bytes(), 1 + number);
    }
    for number in 0..in_root {
        let name = file_name(in_root - 1 - number);
        let dirent = directories + number;
        add_file(&mut tables, 0, dirent, name.as_bytes(), 1 + dirent);
    }
    for slot in 1 + directories + in_root..=slots {
        let number = slot - 1 - directories - in_root;
        let name = file_name(number);
        let (directory, dirent) = (1 + number / DIRENTS, number % DIRENTS);
        add_file(&mut tables, directory, dirent, name.as_bytes(), slot);
    }
    tables
}

/// A file whose path has so many names, and that path.
pub fn chain(depth: usize) -> (Tables, Vec<u8>) {
    let mut tables = open_store();
    let mut path = Vec::new();
    for slot in 1..depth {
        add_directory(&mut tables, slot - 1, 0, b"d", slot);
        path.extend(b"/d");
    }
    add_file(&mut tables, depth - 1, 0, b"f", depth);
    path.extend(b"/f");
    (tables, path)
}

/// The directory /d with the file f, and links /l1 to /l8: the first leads to /d, each other to the one before.
pub fn linked() -> Tables {
    let mut tables = open_store();
    add_directory(&mut tables, 0, 0, b"d", 1);
    add_file(&mut tables, 1, 0, b"f", 2);
    for number in 1..=FOLLOWS {
        let slot = 2 + number;
        *tables.file_mut(slot) = [LINK, 0, 0, 0, 0, 0, 0, 0];
        set_text(&mut tables, slot, directory_by(number - 1).as_bytes());
        let name = &directory_by(number)[1..];
        add_name(&mut tables, 0, number, name.as_bytes(), slot);
    }
    tables
}

/// The path of that directory through so many links.
pub fn directory_by(follows: usize) -> String {
    match follows {
        0 => "/d".to_string(),
        _ => format!("/l{follows}"),
    }
}

fn call(number: u8, path: &[u8]) -> Call {
    Call {
        process: 0,
        call: number,
        descriptor: 0,
        number: 0,
        path: path.to_vec(),
        data: Vec::new(),
        buffer: Vec::new(),
    }
}

pub fn stat(path: &[u8]) -> Call {
    call(9, path)
}

/// A read by descriptor 0.
pub fn read(bytes: usize) -> Call {
    let mut read = call(11, b"");
    read.buffer = vec![0; bytes];
    read
}

/// Open for both, read, write, close.
pub fn cycle(path: &[u8]) -> [Call; 4] {
    let mut open = call(1, path);
    open.number = 3;
    let mut write = call(12, b"");
    write.data = vec![5; CALL_BYTES];
    [open, read(CALL_BYTES), write, call(10, b"")]
}

/// A scene that makes these calls over and over.
pub fn repeat(start: Tables, calls: &[Call], times: usize) -> Scene {
    let repeated = (0..times).flat_map(|_| calls.iter().cloned()).collect();
    Scene {
        start,
        calls: repeated,
        granted: times * calls.len(),
    }
}
