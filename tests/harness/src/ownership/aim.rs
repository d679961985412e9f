//! Calls by chance that are aimed at foo and bar.

use super::situation::{Situation, Supposition};
use crate::action::Action;
use crate::call::Call;
use crate::chance::Chance;
use crate::generate::{names, paths, CallMaker};
use crate::tree;
use mritvelja::calls::*;
use mritvelja::layout::DIRENTS;
use mritvelja::Tables;

/// The calls that change names or records.
const AIMED: [u8; 19] = [
    OPEN,
    CREATE,
    CREATE,
    MAKE_DIRECTORY,
    UNLINK,
    UNLINK,
    UNLINK,
    REMOVE_DIRECTORY,
    REMOVE_DIRECTORY,
    REMOVE_DIRECTORY,
    LINK,
    LINK,
    RENAME,
    RENAME,
    RENAME,
    CHANGE_BITS,
    CHANGE_BITS,
    SYMLINK,
    STAT,
];
/// The calls that give and take descriptors.
const COUNTED: [u8; 6] = [OPEN, OPEN, CLOSE, DUPLICATE, FORK, EXIT];

pub struct Aim {
    maker: CallMaker,
    foo: usize,
    bar: usize,
    foo_path: Vec<u8>,
    bar_path: Vec<u8>,
}

impl Aim {
    pub fn at(situation: &Situation, left_out: Option<Supposition>) -> Aim {
        let mut maker = CallMaker::new(&situation.tables);
        if left_out != Some(Supposition::NoOtherCaller) {
            maker.user = Some(situation.user);
        }
        let mut aim = Aim {
            maker,
            foo: situation.foo,
            bar: situation.bar,
            foo_path: Vec::new(),
            bar_path: Vec::new(),
        };
        aim.find(&situation.tables);
        aim
    }

    /// Where foo and bar are: a rename takes their paths elsewhere.
    fn find(&mut self, tables: &Tables) {
        let nodes = tree::stored_nodes(tables);
        let path = |slot| {
            let node = nodes.iter().find(|node| node.slot == slot);
            node.map_or_else(|| b"/".to_vec(), |node| node.path.clone())
        };
        (self.foo_path, self.bar_path) = (path(self.foo), path(self.bar));
    }

    /// To be called after names came or went.
    pub fn refresh(&mut self, tables: &Tables) {
        self.maker.refresh(tables);
        self.find(tables);
    }

    /// Aimed half of the time, else any action, at times one that the second claim counts.
    pub fn action(&self, chance: &mut Chance, tables: &Tables) -> Action {
        match chance.below(6) {
            0 => {
                let number = chance.pick(&COUNTED);
                Action::Call(self.maker.call_of(chance, tables, number))
            }
            1 | 2 => self.maker.action(chance, tables),
            _ => Action::Call(self.aimed(chance, tables)),
        }
    }

    fn aimed(&self, chance: &mut Chance, tables: &Tables) -> Call {
        let number = chance.pick(&AIMED);
        let mut call = self.maker.call_of(chance, tables, number);
        match number {
            LINK | RENAME if chance.one_in(2) => call.data = self.path(chance, tables),
            _ => call.path = self.path(chance, tables),
        }
        call
    }

    /// The path of foo or bar, or of a name in one of them, which may be there or not.
    fn path(&self, chance: &mut Chance, tables: &Tables) -> Vec<u8> {
        let (path, slot) = match chance.below(3) {
            0 => (&self.foo_path, self.foo),
            _ => (&self.bar_path, self.bar),
        };
        match chance.below(4) {
            0 => path.clone(),
            1 => paths::below(path, &names::name(chance, true)),
            _ => {
                let named = |&entry: &usize| tables.dirent_slot(slot, entry) != 0;
                let entries: Vec<usize> = (0..DIRENTS).filter(named).collect();
                match entries[..] {
                    [] => path.clone(),
                    _ => paths::below(path, tables.dirent_name(slot, chance.pick(&entries))),
                }
            }
        }
    }
}
