//! What renames came to: shows that the calls by chance get to each kind of them.

use crate::call::Call;
use crate::rom;
use crate::tree;
use mritvelja::calls::RENAME;
use mritvelja::layout::*;
use mritvelja::{refusals, Answer, Tables};

const KINDS: [&str; 12] = [
    "granted within a directory",
    "granted within one that is full",
    "granted within one, its parents written differently",
    "granted between two directories",
    "granted, of a directory",
    "granted, of a link",
    "granted, of a file that is open",
    "refused with 11, both paths of one name",
    "refused with 8, into the directory itself",
    "refused with 9, /rom or a prompt by its old name",
    "refused with 9, into /rom by its new name",
    "refused in the walk of the new path",
];

#[derive(Default)]
pub struct Renames {
    kinds: [u64; KINDS.len()],
    /// Those made on pairs of stores that differ in a secret.
    pub in_pairs: u64,
}

impl Renames {
    /// Counts a call by the store that it met and its answer.
    pub fn count(&mut self, tables: &Tables, call: &Call, answer: &Answer) {
        if call.call != RENAME || answer.refusal == refusals::UNSOUND {
            return;
        }
        let kinds = match answer.is_granted() {
            true => granted(tables, call),
            false => refused(tables, call, answer),
        };
        for (count, is_met) in self.kinds.iter_mut().zip(kinds) {
            *count += u64::from(is_met);
        }
    }

    pub fn print(&self) {
        println!("\nrenames");
        for (count, name) in self.kinds.iter().zip(KINDS) {
            println!("{count:>7}  {name}");
        }
        println!("{:>7}  on pairs of stores, for secrecy", self.in_pairs);
    }
}

type Met = [bool; KINDS.len()];

fn granted(tables: &Tables, call: &Call) -> Met {
    let (old, new) = (directory(&call.path), directory(&call.data));
    let [from, to] = [old, new].map(|path| slot_of(tables, path));
    let within = from.is_some() && from == to;
    let is_full = |slot: usize| tables.file(slot)[FILE_LENGTH] == DIRENTS as u32;
    let slot = named(tables, &call.path);
    let is_kind = |kind| slot.is_some_and(|slot| rom::is_kind(tables, slot, kind));
    let mut open = (0..OPEN_FILES).map(|number| tables.open_file(number));
    let is_open = open.any(|file| {
        file[OPEN_REFERENCES] > 0 && slot.is_some_and(|slot| file[OPEN_SLOT] as usize == slot)
    });
    let [directory, link] = [DIRECTORY, LINK].map(is_kind);
    let full = within && from.is_some_and(is_full);
    let otherwise = within && tree::names(old).ne(tree::names(new));
    let between = from.is_some() && !within;
    let mut met = [false; KINDS.len()];
    met[..7].copy_from_slice(&[within, full, otherwise, between, directory, link, is_open]);
    met
}

fn refused(tables: &Tables, call: &Call, answer: &Answer) -> Met {
    let refusal = answer.refusal;
    let [old, new] = [&call.path, &call.data].map(|path| place(tables, path));
    let from = named(tables, &call.path);
    let parent = new.map(|(parent, _)| parent);
    let equal = refusal == refusals::NAME_THERE && old == new;
    let inside = refusal == refusals::WRONG_KIND && parent == from;
    let forbidden = refusal == refusals::BITS_FORBID && answer.stop == 0;
    let prompt = forbidden && from.is_some_and(|slot| !rom::is_stored(slot));
    let into_rom = forbidden && !prompt && parent == Some(rom::ROM);
    // A stop is of one walk: where the old path leads to a name it was the new one's, unless a right was refused.
    let in_new = matches!(
        refusal,
        refusals::NAME_MISSING | refusals::NOT_A_DIRECTORY | refusals::TOO_DEEP
    ) && from.is_some();
    let mut met = [false; KINDS.len()];
    met[7..].copy_from_slice(&[equal, inside, prompt, into_rom, in_new]);
    met
}

/// The path without its last name.
fn directory(path: &[u8]) -> &[u8] {
    let last = path.iter().rposition(|&byte| byte == b'/');
    &path[..last.unwrap_or(0)]
}

fn slot_of(tables: &Tables, path: &[u8]) -> Option<usize> {
    let way = tree::way(tables, path, FOLLOWS).ok()?;
    Some(way.slot)
}

/// The directory of a path's last name, and that name.
fn place<'a>(tables: &Tables, path: &'a [u8]) -> Option<(usize, &'a [u8])> {
    let parent = slot_of(tables, directory(path))?;
    Some((parent, tree::names(path).last()?))
}

/// The slot that a path names, its last name not followed.
fn named(tables: &Tables, path: &[u8]) -> Option<usize> {
    let (parent, name) = place(tables, path)?;
    tree::look_up(tables, parent, name)
}
