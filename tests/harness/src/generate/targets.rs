//! The paths that calls by chance are given.

use super::calls::Scene;
use super::{names, paths};
use crate::building::has_name;
use crate::rom;
use crate::tree::Node;
use mritvelja::layout::*;
use mritvelja::Tables;

impl Scene<'_> {
    /// Mostly one for which the call can be granted.
    pub(super) fn path(&mut self, call: u8, number: u16) -> Vec<u8> {
        let kind = |tables: &Tables, slot, kind| rom::is_kind(tables, slot, kind);
        let stored = |slot| rom::is_stored(slot);
        let reads = call == 1 && number == 1;
        match call {
            1 | 17 => self.existing(
                |tables, node| kind(tables, node.target, PLAIN) && (reads || stored(node.target)),
                None,
            ),
            2 | 3 | 18 => self.new_path(),
            4 => self.existing(
                |tables, node| !kind(tables, node.slot, DIRECTORY),
                Some(WRITE),
            ),
            5 => self.removable(),
            6 => self.existing(
                |tables, node| kind(tables, node.slot, PLAIN) && stored(node.slot),
                None,
            ),
            7 => self.existing(|tables, node| kind(tables, node.target, DIRECTORY), None),
            8 => self.existing(|_, node| stored(node.target), None),
            9 => self.existing(|_, _| true, None),
            19 => self.existing(|tables, node| kind(tables, node.slot, LINK), None),
            20 => self.renamable(),
            // Not used by the call, and so of no matter.
            _ => self.unused(),
        }
    }

    /// The path of a directory, mostly of an empty one.
    fn removable(&mut self) -> Vec<u8> {
        let full_too = self.chance.percent(20);
        let fits = |tables: &Tables, node: &Node| {
            rom::is_kind(tables, node.slot, DIRECTORY)
                && (full_too || rom::file(tables, node.slot)[FILE_LENGTH] == 0)
        };
        self.existing(fits, Some(WRITE))
    }

    /// The path of a name that passes; a right is asked of its directory.
    pub(super) fn existing(
        &mut self,
        pass: impl Fn(&Tables, &Node) -> bool,
        asked: Option<u32>,
    ) -> Vec<u8> {
        if self.chance.one_in(25) {
            return self.missing_or_odd();
        }
        if self.names.has_links && self.chance.one_in(20) {
            return self.by_any_link();
        }
        if self.names.sees_rom && self.chance.one_in(20) {
            return self.by_rom();
        }
        let node = self.node(|scene, node| {
            pass(scene.tables, node)
                && asked.is_none_or(|right| scene.may(node.parent, right))
                && scene.may(node.parent, EXECUTE)
        });
        self.way_to(&node.path)
    }

    /// A link's path or one below it, wherever the link leads.
    pub(super) fn by_any_link(&mut self) -> Vec<u8> {
        let node = self.node(|scene, node| rom::is_kind(scene.tables, node.slot, LINK));
        let path = self.way_to(&node.path);
        if self.chance.one_in(2) {
            return path;
        }
        paths::below(&path, &names::name(self.chance, true))
    }

    /// A path of or into /rom, also to what is not there, or of the same name elsewhere.
    pub(super) fn by_rom(&mut self) -> Vec<u8> {
        let rom = paths::below(b"/", rom::NAME);
        let number = format!("{:02}", self.chance.below(PROMPTS + 2));
        let prompt = paths::below(&rom, number.as_bytes());
        let name = names::name(self.chance, true);
        let path = match self.chance.below(8) {
            0 | 1 => rom,
            2..=4 => prompt,
            5 => paths::below(&prompt, &name),
            6 => paths::below(&rom, &name),
            _ => paths::below(&self.node(|_, _| true).path, rom::NAME),
        };
        self.way_to(&path)
    }

    /// The path, at times through links.
    pub(super) fn way_to(&mut self, path: &[u8]) -> Vec<u8> {
        let path = self.names.through(self.chance, path);
        paths::written(self.chance, &path)
    }

    pub(super) fn missing_or_odd(&mut self) -> Vec<u8> {
        let node = self.node(|_, _| true);
        match self.chance.below(3) {
            0 => paths::odd(self.chance, &node.path),
            _ => {
                let name = names::name(self.chance, true);
                paths::below(&node.path, &name)
            }
        }
    }

    /// A path for a name to be made, mostly in a directory with room.
    pub(super) fn new_path(&mut self) -> Vec<u8> {
        if self.chance.one_in(30) {
            return self.missing_or_odd();
        }
        if self.names.sees_rom && self.chance.one_in(20) {
            return self.by_rom();
        }
        let full_too = self.chance.one_in(6);
        let deep = self.deep_directory().filter(|_| self.chance.one_in(5));
        let node = deep.unwrap_or_else(|| {
            self.node(|scene, node| {
                rom::is_kind(scene.tables, node.slot, DIRECTORY)
                    && scene.names.reaches(&paths::below(&node.path, b"x"))
                    && (full_too
                        || rom::file(scene.tables, node.slot)[FILE_LENGTH] < DIRENTS as u32)
                    && scene.may(node.slot, WRITE | EXECUTE)
            })
        });
        let short = self.chance.one_in(2);
        let mut name = names::name(self.chance, short);
        if has_name(self.tables, node.slot, &name) && self.chance.percent(80) {
            name = names::name(self.chance, false);
        }
        self.way_to(&paths::below(&node.path, &name))
    }

    /// A directory as deep as one may be, if links lead to such: there no other can be made.
    fn deep_directory(&mut self) -> Option<Node> {
        let nodes = &self.names.nodes;
        let number = self.chance.pick_where(nodes.len(), |number| {
            let node = &nodes[number];
            node.depth == NAMES
                && self.tables.is_kind(node.slot, DIRECTORY)
                && self.names.reaches(&paths::below(&node.path, b"x"))
        })?;
        Some(nodes[number].clone())
    }

    /// A name that passes, tried for a few times; then any.
    pub(super) fn node(&mut self, pass: impl Fn(&Self, &Node) -> bool) -> Node {
        let wanted = self.favourite.filter(|_| self.chance.one_in(4));
        let careless = self.chance.one_in(12);
        let nodes = &self.names.nodes;
        let mut node = &nodes[self.chance.below(nodes.len())];
        for _ in 0..24 {
            let favoured = wanted.is_none_or(|slot| node.target == slot);
            if careless || (favoured && self.names.reaches(&node.path) && pass(self, node)) {
                break;
            }
            node = &nodes[self.chance.below(nodes.len())];
        }
        node.clone()
    }

    /// Whether the caller likely has these rights: a guess that only shapes the calls.
    pub(super) fn may(&self, slot: usize, rights: u32) -> bool {
        let (who, file) = (
            self.tables.process(self.process),
            rom::file(self.tables, slot),
        );
        let shift = if who[PROCESS_USER] == file[FILE_OWNER] {
            6
        } else if who[PROCESS_GROUP] == file[FILE_GROUP] {
            3
        } else {
            0
        };
        let by_bits = who[PROCESS_USER] == 0 || file[FILE_BITS] >> shift & rights == rights;
        let by_memory = rights & WRITE == 0 || rom::is_stored(slot);
        let (label, over) = (who[PROCESS_LABEL] as usize, file[FILE_LABEL] as usize);
        let by_label = u32::from(self.tables.rights(label, over)) & rights == rights;
        by_bits && by_memory && by_label
    }
}
