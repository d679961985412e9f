//! Every name in a store, with its path from the root, and where paths lead.

use crate::rom;
use mritvelja::layout::*;
use mritvelja::Tables;

#[derive(Clone, Debug)]
pub struct Node {
    pub slot: usize,
    /// The directory that holds the name.
    pub parent: usize,
    /// How many names the path has.
    pub depth: usize,
    /// The path, with single slashes.
    pub path: Vec<u8>,
    /// Where a symbolic link leads; of any other file, and of a link that leads nowhere, its own slot.
    pub target: usize,
}

/// All names that calls see in a sound store and the root, each directory before what it holds.
pub fn nodes(tables: &Tables) -> Vec<Node> {
    let mut nodes = vec![Node {
        slot: 0,
        parent: 0,
        depth: 0,
        path: Vec::new(),
        target: 0,
    }];
    let mut next = 0;
    while next < nodes.len() {
        let node = nodes[next].clone();
        next += 1;
        for (name, slot) in entries(tables, node.slot) {
            nodes.push(below(tables, &node, name, slot));
        }
    }
    nodes[0].path = b"/".to_vec();
    nodes
}

/// The same without /rom and what is in it.
pub fn stored_nodes(tables: &Tables) -> Vec<Node> {
    let mut nodes = nodes(tables);
    nodes.retain(|node| rom::is_stored(node.slot));
    nodes
}

/// The names in a directory, each with the slot that it leads to; none in another file.
fn entries(tables: &Tables, slot: usize) -> impl Iterator<Item = (&[u8], usize)> {
    let is_stored = rom::is_stored(slot) && tables.is_kind(slot, DIRECTORY);
    let stored = (0..if is_stored { DIRENTS } else { 0 })
        .map(move |dirent| {
            (
                tables.dirent_name(slot, dirent),
                tables.dirent_slot(slot, dirent),
            )
        })
        .filter(|&(_, named)| named != 0);
    stored.chain(rom::shown(tables, slot))
}

fn below(tables: &Tables, node: &Node, name: &[u8], slot: usize) -> Node {
    let mut path = node.path.clone();
    path.push(b'/');
    path.extend(name);
    let target = match rom::is_kind(tables, slot, LINK) {
        true => way(tables, &path, FOLLOWS).map_or(slot, |way| way.slot),
        false => slot,
    };
    Node {
        slot,
        parent: node.slot,
        depth: node.depth + 1,
        path,
        target,
    }
}

/// Where a path leads, every symbolic link followed and no right asked.
#[derive(Clone, Copy, Debug, PartialEq, Eq)]
pub struct Way {
    pub slot: usize,
    /// How many links were followed.
    pub follows: usize,
}

/// Why a path leads nowhere.
#[derive(Clone, Copy, Debug, PartialEq, Eq)]
pub enum Lost {
    Missing,
    TooManyFollows,
}

/// The way along a path in a sound store, through so many links at most.
pub fn way(tables: &Tables, path: &[u8], most: usize) -> Result<Way, Lost> {
    let mut left = most;
    let slot = walk(tables, path, &mut left)?;
    Ok(Way {
        slot,
        follows: most - left,
    })
}

fn walk(tables: &Tables, path: &[u8], left: &mut usize) -> Result<usize, Lost> {
    let mut at = ROOT;
    for name in names(path) {
        let slot = look_up(tables, at, name).ok_or(Lost::Missing)?;
        at = if rom::is_kind(tables, slot, LINK) {
            *left = left.checked_sub(1).ok_or(Lost::TooManyFollows)?;
            walk(tables, tables.bytes(slot), left)?
        } else {
            slot
        };
    }
    Ok(at)
}

/// The names of a path that is well formed.
pub fn names(path: &[u8]) -> impl Iterator<Item = &[u8]> {
    path.split(|&byte| byte == b'/')
        .filter(|name| !name.is_empty())
}

/// What a name in a directory leads to.
pub fn look_up(tables: &Tables, directory: usize, name: &[u8]) -> Option<usize> {
    let mut entries = entries(tables, directory);
    entries.find(|entry| entry.0 == name).map(|entry| entry.1)
}
