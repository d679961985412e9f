//! Paths through symbolic links, and the texts of links.

use super::{names, paths};
use crate::chance::Chance;
use crate::rom;
use crate::tree::{self, Node};
use mritvelja::layout::*;
use mritvelja::Tables;

/// The paths of a link and of the directory to which it leads; the root's is empty here.
pub struct Shortcut {
    link: Vec<u8>,
    directory: Vec<u8>,
}

impl Shortcut {
    /// Whether the path begins with the directory's.
    fn fits(&self, path: &[u8]) -> bool {
        let rest = path.strip_prefix(&self.directory[..]);
        rest.is_some_and(|rest| rest.is_empty() || rest[0] == b'/')
    }

    fn taken(&self, path: &[u8]) -> Vec<u8> {
        [&self.link, &path[self.directory.len()..]].concat()
    }
}

/// What the generator knows of a store's names.
pub struct Names {
    pub nodes: Vec<Node>,
    pub has_links: bool,
    /// Whether /rom and what is in it are among the nodes.
    pub sees_rom: bool,
    shortcuts: Vec<Shortcut>,
}

impl Names {
    pub fn of(tables: &Tables, sees_rom: bool) -> Names {
        let nodes = match sees_rom {
            true => tree::nodes(tables),
            false => tree::stored_nodes(tables),
        };
        let shortcut = |link: &Node| {
            let leads = |node: &&Node| {
                node.slot == link.target && rom::is_kind(tables, node.slot, DIRECTORY)
            };
            let directory = nodes.iter().find(leads)?;
            Some(Shortcut {
                link: link.path.clone(),
                directory: paths::without_root(&directory.path),
            })
        };
        let is_link = |node: &&Node| rom::is_kind(tables, node.slot, LINK);
        let links = nodes.iter().filter(is_link);
        Names {
            has_links: links.clone().next().is_some(),
            sees_rom,
            shortcuts: links.filter_map(shortcut).collect(),
            nodes,
        }
    }

    /// Whether a path is short enough, or would be through a link.
    pub fn reaches(&self, path: &[u8]) -> bool {
        let by = |shortcut: &Shortcut| shortcut.fits(path) && is_path(&shortcut.taken(path));
        is_path(path) || self.shortcuts.iter().any(by)
    }

    /// The path by the way of up to four links: half of the time, and nearly always where it is too long without.
    pub fn through(&self, chance: &mut Chance, path: &[u8]) -> Vec<u8> {
        let mut way = paths::without_root(path);
        for _ in 0..4 {
            let fitting = |&number: &usize| self.shortcuts[number].fits(&way);
            let fitting: Vec<usize> = (0..self.shortcuts.len()).filter(fitting).collect();
            if fitting.is_empty() || (is_path(&way) && chance.one_in(2)) {
                break;
            }
            let taken = self.shortcuts[chance.pick(&fitting)].taken(&way);
            if is_path(&taken) {
                way = taken;
            }
        }
        if way.is_empty() {
            way.push(b'/');
        }
        way
    }

    /// The text of a link: to what there is, to the root or the deepest directory, into /rom, through other links or to
    /// nothing.
    pub fn text(&self, chance: &mut Chance, tables: &Tables) -> Vec<u8> {
        if chance.one_in(12) {
            return vec![b'/'; chance.pick(&[1, 1, 2, 3, PATH])];
        }
        let any = |_: &&Node| true;
        let directory = |node: &&Node| rom::is_kind(tables, node.slot, DIRECTORY);
        let link = |node: &&Node| rom::is_kind(tables, node.slot, LINK);
        let in_rom = |node: &&Node| !rom::is_stored(node.slot);
        let path = match chance.below(10) {
            _ if self.sees_rom && chance.one_in(6) => self.pick(chance, in_rom),
            0 | 1 => self.deepest(tables),
            2 => paths::below(&self.pick(chance, any), &names::name(chance, true)),
            3 | 4 => self.pick(chance, link),
            5..=7 => self.pick(chance, directory),
            _ => self.pick(chance, any),
        };
        let way = self.through(chance, &path);
        let text = paths::written(chance, &way);
        if is_path(&text) {
            text
        } else {
            b"/".to_vec()
        }
    }

    /// The path of a node that passes, or the root's.
    fn pick(&self, chance: &mut Chance, pass: impl Fn(&&Node) -> bool) -> Vec<u8> {
        let passing: Vec<&Node> = self.nodes.iter().filter(pass).collect();
        match passing[..] {
            [] => b"/".to_vec(),
            _ => chance.pick(&passing).path.clone(),
        }
    }

    pub fn deepest(&self, tables: &Tables) -> Vec<u8> {
        let stored = self.nodes.iter().filter(|node| rom::is_stored(node.slot));
        let directories = stored.filter(|node| tables.is_kind(node.slot, DIRECTORY));
        let deepest = directories.max_by_key(|node| node.depth);
        deepest.map_or_else(|| b"/".to_vec(), |node| node.path.clone())
    }
}

/// Whether a path of valid names is short enough.
pub fn is_path(path: &[u8]) -> bool {
    path.len() <= PATH && tree::names(path).count() <= NAMES
}
