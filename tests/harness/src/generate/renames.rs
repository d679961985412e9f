//! The two paths of a rename by chance: aimed at one parent and at two, at full directories, at /rom and at equal paths.

use super::calls::Scene;
use super::{names, paths};
use crate::building::has_name;
use crate::rom;
use crate::tree::{self, Node};
use mritvelja::layout::*;
use mritvelja::Tables;

/// Other names that are tried for one that is not there.
const TRIES: usize = 4;

impl Scene<'_> {
    /// The path of a name that is to change, of a directory too: mostly one of a directory that may be written to.
    pub(super) fn renamable(&mut self) -> Vec<u8> {
        let directory = self.chance.one_in(4);
        let fits = |tables: &Tables, node: &Node| {
            node.slot != ROOT
                && rom::is_stored(node.slot)
                && (!directory || tables.is_kind(node.slot, DIRECTORY))
        };
        self.existing(fits, Some(WRITE))
    }

    /// The path of the new name, for an old one that may be of any form.
    pub(super) fn renamed(&mut self, old: &[u8]) -> Vec<u8> {
        match self.chance.below(40) {
            0 => old.to_vec(),
            1 => self.way_to(old),
            2 if self.is_directory(old) => {
                let name = names::name(self.chance, true);
                paths::below(old, &name)
            }
            3 => self.existing(|_, _| true, Some(WRITE)),
            4 => self.missing_or_odd(),
            5 if self.names.has_links => self.by_any_link(),
            6 if self.names.sees_rom => self.by_rom(),
            7..=10 => self
                .in_a_full_directory()
                .unwrap_or_else(|| self.new_path()),
            11..=26 => self.beside(old),
            _ => self.new_path(),
        }
    }

    fn is_directory(&self, path: &[u8]) -> bool {
        let way = tree::way(self.tables, path, FOLLOWS);
        way.is_ok_and(|way| rom::is_kind(self.tables, way.slot, DIRECTORY))
    }

    /// A path with another name in its last name's place, at times by another way.
    fn beside(&mut self, path: &[u8]) -> Vec<u8> {
        let parent = match path.iter().rposition(|&byte| byte == b'/') {
            Some(last) => &path[..last],
            None => b"",
        };
        let directory = tree::way(self.tables, parent, FOLLOWS).map_or(ROOT, |way| way.slot);
        let beside = paths::below(parent, &self.other_name(directory));
        self.way_to(&beside)
    }

    /// A new name in a directory where no entry is free, if there is such.
    fn in_a_full_directory(&mut self) -> Option<Vec<u8>> {
        let nodes = &self.names.nodes;
        let (tables, reaches) = (self.tables, |path: &[u8]| self.names.reaches(path));
        let number = self.chance.pick_where(nodes.len(), |number| {
            let node = &nodes[number];
            rom::is_stored(node.slot)
                && tables.is_kind(node.slot, DIRECTORY)
                && tables.file(node.slot)[FILE_LENGTH] == DIRENTS as u32
                && reaches(&paths::below(&node.path, b"x"))
        })?;
        let Node { slot, ref path, .. } = nodes[number];
        let new = paths::below(path, &self.other_name(slot));
        Some(self.way_to(&new))
    }

    /// A name that the directory mostly has not yet.
    fn other_name(&mut self, directory: usize) -> Vec<u8> {
        let mut name = names::name(self.chance, true);
        for _ in 0..TRIES {
            if !has_name(self.tables, directory, &name) {
                break;
            }
            name = names::name(self.chance, false);
        }
        name
    }
}
