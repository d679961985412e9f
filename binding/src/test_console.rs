//! The papers' test console.

use crate::layout::*;
use crate::Tables;

const FARES: usize = 1;
const NOW: usize = 2;
const KEY: usize = 3;
const KEY_LABEL: usize = 3;
/// Of every file and process in use.
const GROUP: u32 = 1;

/// The papers' test console, fresh: a small store to begin or to test with.
pub fn test_console() -> Tables {
    let mut tables = Tables::empty();
    set_files(&mut tables);
    set_processes(&mut tables);
    set_policy(&mut tables);
    tables
}

fn set_files(tables: &mut Tables) {
    *tables.file_mut(ROOT) = [DIRECTORY, 0, GROUP, 0o755, 0, 2, 0, 0];
    *tables.file_mut(FARES) = [DIRECTORY, 10, GROUP, 0o755, 0, 1, 1, 0];
    *tables.file_mut(NOW) = [PLAIN, 10, GROUP, 0o744, 0, 5, 1, 0];
    *tables.file_mut(KEY) = [PLAIN, 10, GROUP, 0o700, KEY_LABEL as u32, 4, 1, 0];
    tables.set_dirent(ROOT, 0, b"fares", FARES);
    tables.set_dirent(ROOT, 1, b"key", KEY);
    tables.set_dirent(FARES, 0, b"now", NOW);
    tables.block_mut(NOW)[..5].copy_from_slice(b"2.40\n");
    tables.block_mut(KEY)[..4].copy_from_slice(&[1, 2, 3, 4]);
}

fn set_processes(tables: &mut Tables) {
    for (process, user) in [0, 10, 20].into_iter().enumerate() {
        let record = tables.process_mut(process);
        record[PROCESS_USED] = 1;
        record[PROCESS_USER] = user;
        record[PROCESS_GROUP] = GROUP;
        record[PROCESS_LABEL] = process as u32;
    }
}

fn set_policy(tables: &mut Tables) {
    for (label, rights) in [7, 7, 5].into_iter().enumerate() {
        tables.set_rights(label, 0, rights);
    }
    tables.set_rights(1, KEY_LABEL, 2);
}
