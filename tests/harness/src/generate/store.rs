//! Sound stores by chance, written straight into the tables.

use super::names::name;
use super::open_files::add_open_files;
use super::shape::{Shape, Spread, Strictness};
use super::ways::{is_path, Names};
use crate::building::{add_name, has_name, set_text};
use crate::chance::Chance;
use crate::rom;
use crate::tree;
use mritvelja::layout::*;
use mritvelja::Tables;

const USERS: [u32; 4] = [0, 10, 20, 65_535];
const GROUPS: [u32; 4] = [1, 0, 10, 65_535];

struct Maker<'a> {
    chance: &'a mut Chance,
    shape: Shape,
    tables: Tables,
    /// Directories with the number of names in their paths.
    directories: Vec<(usize, usize)>,
    free_slots: Vec<usize>,
}

/// A sound store: any tree, any open files, any policy, any factory part.
pub fn random_store(chance: &mut Chance) -> Tables {
    let shape = Shape::random(chance);
    store_of(chance, shape)
}

pub fn store_of(chance: &mut Chance, shape: Shape) -> Tables {
    let mut free_slots: Vec<usize> = (1..SLOTS).collect();
    if chance.percent(70) {
        chance.shuffle(&mut free_slots);
    } else {
        free_slots.reverse();
    }
    let mut maker = Maker {
        chance,
        shape,
        tables: Tables::empty(),
        directories: vec![(0, 0)],
        free_slots,
    };
    maker.set_rom();
    maker.set_policy();
    maker.set_versions();
    maker.set_root();
    maker.grow();
    maker.add_symlinks();
    maker.add_links();
    maker.add_processes();
    let Maker {
        chance,
        shape,
        mut tables,
        free_slots,
        ..
    } = maker;
    add_open_files(chance, &shape, &mut tables, free_slots);
    tables
}

impl Maker<'_> {
    fn set_rom(&mut self) {
        for _ in 0..self.shape.prompts.unwrap_or(0) {
            let length = self.length();
            let prompt = self.chance.bytes(length);
            self.tables.rom.extend(rom::laid(&prompt));
        }
    }

    fn set_policy(&mut self) {
        for cell in 0..RIGHTS_SIZE {
            let all = match self.shape.strictness {
                Strictness::Generous => 97,
                Strictness::Mixed => 60,
                Strictness::Strict => 10,
            };
            let any = self.chance.below(8) as u8;
            self.tables.policy[cell] = if self.chance.percent(all) { 7 } else { any };
            if self.chance.percent(self.shape.transitions) {
                self.tables.policy[RIGHTS_SIZE + cell] = self.label() as u8;
            }
        }
    }

    /// Free slots have versions too.
    fn set_versions(&mut self) {
        for slot in 0..SLOTS {
            let version = if self.chance.percent(self.shape.wrapping) {
                u32::MAX - self.chance.pick(&[0, 0, 0, 1, 2])
            } else {
                self.chance.word() as u32 >> self.chance.below(32)
            };
            self.tables.file_mut(slot)[FILE_VERSION] = version;
        }
    }

    fn set_root(&mut self) {
        let (owner, group) = (self.user(), self.group());
        let (bits, label) = (self.bits(), self.label());
        self.tables.file_mut(0)[FILE_OWNER] = owner;
        self.tables.file_mut(0)[FILE_GROUP] = group;
        self.tables.file_mut(0)[FILE_BITS] = bits | 0o111;
        self.tables.file_mut(0)[FILE_LABEL] = label;
    }

    fn grow(&mut self) {
        for _ in 0..self.shape.files - self.shape.symlinks {
            let Some((parent, depth)) = self.parent() else {
                return;
            };
            let Some(slot) = self.free_slots.pop() else {
                return;
            };
            let directory = depth < NAMES && self.chance.percent(self.shape.directories);
            if directory {
                self.directories.push((slot, depth + 1));
            }
            self.set_file(slot, if directory { DIRECTORY } else { PLAIN });
            self.name(parent, slot);
        }
    }

    /// A directory with an empty entry, and its depth.
    fn parent(&mut self) -> Option<(usize, usize)> {
        let tables = &self.tables;
        let roomy = |&(slot, _): &(usize, usize)| tables.file(slot)[FILE_LENGTH] < DIRENTS as u32;
        let fit: Vec<(usize, usize)> = self.directories.iter().copied().filter(roomy).collect();
        if fit.is_empty() {
            return None;
        }
        Some(match self.shape.spread {
            Spread::Deep if self.chance.percent(60) => fit[fit.len() - 1],
            Spread::Wide if self.chance.percent(80) => fit[0],
            _ => self.chance.pick(&fit),
        })
    }

    fn set_file(&mut self, slot: usize, kind: u32) {
        let length = if kind == PLAIN { self.length() } else { 0 };
        let bytes = self.chance.bytes(length);
        let bits = self.bits();
        self.set_record(slot, kind, bits, &bytes);
    }

    fn set_record(&mut self, slot: usize, kind: u32, bits: u32, bytes: &[u8]) {
        let (owner, group, label) = (self.user(), self.group(), self.label());
        let (length, version) = (bytes.len() as u32, self.tables.file(slot)[FILE_VERSION]);
        let record = [kind, owner, group, bits, label, length, 0, version];
        *self.tables.file_mut(slot) = record;
        self.tables.block_mut(slot)[..bytes.len()].copy_from_slice(bytes);
    }

    fn names(&self) -> Names {
        Names::of(&self.tables, self.shape.prompts.is_some())
    }

    /// Symbolic links: to the deepest directory, chains that take up to ten follows and more, rings, and single ones.
    fn add_symlinks(&mut self) {
        let mut left = self.shape.symlinks;
        let deepest = self.names().deepest(&self.tables);
        if left > 0 && is_path(&deepest) && self.chance.one_in(2) {
            self.add_symlink(&deepest);
            left -= 1;
        }
        while left > 0 {
            let (count, ring) = match self.chance.below(5) {
                0 | 1 => (self.chance.between(2, 10), false),
                2 => (self.chance.between(1, 4), true),
                _ => (1, false),
            };
            self.add_chain(count.min(left), ring);
            left -= count.min(left);
        }
    }

    /// Links of which each leads to the one before, and the first anywhere, or in a ring to the last.
    fn add_chain(&mut self, count: usize, ring: bool) {
        let mut text = self.names().text(self.chance, &self.tables);
        let mut first = None;
        for _ in 0..count {
            let Some((slot, path)) = self.add_symlink(&text) else {
                break;
            };
            first = first.or(Some(slot));
            text = path;
        }
        if let (true, Some(slot)) = (ring, first) {
            set_text(&mut self.tables, slot, &text);
        }
    }

    /// One more link, and its path, if that can be a text.
    fn add_symlink(&mut self, text: &[u8]) -> Option<(usize, Vec<u8>)> {
        let (parent, _) = self.parent()?;
        let slot = self.free_slots.pop()?;
        self.set_record(slot, LINK, 0, text);
        self.name(parent, slot);
        let nodes = tree::nodes(&self.tables);
        let path = nodes.into_iter().find(|node| node.slot == slot)?.path;
        is_path(&path).then_some((slot, path))
    }

    fn length(&mut self) -> usize {
        match self.chance.below(6) {
            0 => 0,
            1 => BLOCK,
            2 => BLOCK - self.chance.below(20),
            _ => self.chance.below(60),
        }
    }

    /// Gives the slot a name that is new in the directory, in any empty entry.
    fn name(&mut self, directory: usize, slot: usize) {
        let tables = &self.tables;
        let empty = |dirent| tables.dirent_slot(directory, dirent) == 0;
        let Some(dirent) = self.chance.pick_where(DIRENTS, empty) else {
            return;
        };
        let short = self.shape.spread == Spread::Deep || self.chance.percent(60);
        let mut fresh = match self.shape.prompts {
            Some(_) if self.chance.one_in(30) => rom::NAME.to_vec(),
            _ => name(self.chance, short),
        };
        while has_name(&self.tables, directory, &fresh) {
            fresh = name(self.chance, short);
        }
        add_name(&mut self.tables, directory, dirent, &fresh, slot);
    }

    /// Further names for some plain files.
    fn add_links(&mut self) {
        for _ in 0..self.chance.below(12) {
            let tables = &self.tables;
            let plain = |slot| tables.is_kind(slot, PLAIN);
            let Some(slot) = self.chance.pick_where(SLOTS, plain) else {
                return;
            };
            if let Some((parent, _)) = self.parent() {
                self.name(parent, slot);
            }
        }
    }

    fn add_processes(&mut self) {
        let mut numbers: Vec<usize> = (0..PROCESSES).collect();
        self.chance.shuffle(&mut numbers);
        for &process in &numbers[..self.shape.processes] {
            let (user, group, label) = (self.user(), self.group(), self.label());
            self.tables.process_mut(process)[PROCESS_USED] = 1;
            self.tables.process_mut(process)[PROCESS_USER] = user;
            self.tables.process_mut(process)[PROCESS_GROUP] = group;
            self.tables.process_mut(process)[PROCESS_LABEL] = label;
        }
    }

    fn user(&mut self) -> u32 {
        match self.chance.below(20) {
            0 => self.chance.below(65_536) as u32,
            _ => self.chance.pick(&USERS[..self.shape.users]),
        }
    }

    fn group(&mut self) -> u32 {
        match self.chance.below(20) {
            0 => self.chance.below(65_536) as u32,
            _ => self.chance.pick(&GROUPS[..self.shape.groups]),
        }
    }

    /// The rights of the three classes, each by itself, so that an owner may have fewer than others.
    fn bits(&mut self) -> u32 {
        (0..3).fold(0, |bits, _| bits << 3 | self.class_rights())
    }

    fn class_rights(&mut self) -> u32 {
        match self.chance.below(8) {
            0 => self.chance.below(8) as u32,
            1 => 5,
            _ => 7,
        }
    }

    fn label(&mut self) -> u32 {
        self.chance.below(self.shape.labels) as u32
    }
}
