//! What one call changed, to be put back quickly between measurements.

use mritvelja::layout::BLOCK;
use mritvelja::Tables;

pub struct Undo {
    files: Patch<u32>,
    /// By slot, since a call may change two that lie far apart.
    contents: Vec<Patch<u8>>,
    open_files: Patch<u32>,
    processes: Patch<u32>,
}

/// The words from the first changed one to the last, as they were.
struct Patch<T> {
    start: usize,
    words: Vec<T>,
}

impl<T: Copy + PartialEq> Patch<T> {
    fn between(before: &[T], after: &[T], offset: usize) -> Patch<T> {
        let differs = |&at: &usize| before[at] != after[at];
        let first = (0..before.len()).find(differs).unwrap_or(0);
        let end = (0..before.len()).rfind(differs).map_or(0, |last| last + 1);
        Patch {
            start: offset + first,
            words: before[first..end.max(first)].to_vec(),
        }
    }

    fn put_back(&self, table: &mut [T]) {
        table[self.start..][..self.words.len()].copy_from_slice(&self.words);
    }
}

impl Undo {
    pub fn between(before: &Tables, after: &Tables) -> Undo {
        let blocks = before
            .contents
            .chunks(BLOCK)
            .zip(after.contents.chunks(BLOCK));
        Undo {
            files: Patch::between(&before.files, &after.files, 0),
            contents: blocks
                .enumerate()
                .filter(|(_, (old, new))| old != new)
                .map(|(slot, (old, new))| Patch::between(old, new, BLOCK * slot))
                .collect(),
            open_files: Patch::between(&before.open_files, &after.open_files, 0),
            processes: Patch::between(&before.processes, &after.processes, 0),
        }
    }

    /// How many slots have other contents.
    pub fn blocks(&self) -> usize {
        self.contents.len()
    }

    pub fn put_back(&self, tables: &mut Tables) {
        self.files.put_back(&mut tables.files);
        for patch in &self.contents {
            patch.put_back(&mut tables.contents);
        }
        self.open_files.put_back(&mut tables.open_files);
        self.processes.put_back(&mut tables.processes);
    }
}
