//! A store that grows line by line.

use super::lowest_free;
use mritvelja::layout::*;
use mritvelja::Tables;
use std::collections::BTreeMap;

pub struct Building {
    pub tables: Tables,
    /// What the lines gave, each with the number of its line.
    given: BTreeMap<String, usize>,
}

impl Building {
    pub fn new() -> Building {
        Building {
            tables: Tables::empty(),
            given: BTreeMap::new(),
        }
    }

    /// Notes what a line gives, which no line before it may have given.
    pub fn give(&mut self, what: String, line: usize) -> Result<(), String> {
        match self.given.get(&what) {
            Some(earlier) => Err(format!("{what} stands in line {earlier} already")),
            None => {
                self.given.insert(what, line);
                Ok(())
            }
        }
    }

    /// Gives a slot to a line: the one it names, or the lowest that no line has.
    pub fn give_slot(&mut self, wanted: Option<u32>, line: usize) -> Result<usize, String> {
        let is_given = |slot| slot == ROOT || self.given.contains_key(&slot_name(slot));
        let slot = wanted
            .map(|slot| slot as usize)
            .or_else(|| lowest_free(SLOTS, is_given))
            .ok_or_else(|| format!("all {SLOTS} slots are taken"))?;
        match slot {
            ROOT => Err(format!("slot {ROOT} is the root's")),
            _ => self.give(slot_name(slot), line).map(|()| slot),
        }
    }

    /// The store, once every line is read, or the line that leaves it unsound and why.
    pub fn finish(self) -> Result<Tables, (usize, &'static str)> {
        let tables = &self.tables;
        let is_idle = |&number: &usize| tables.open_file(number)[OPEN_REFERENCES] == 0;
        if let Some(idle) = tables.open_files_in_use().find(is_idle) {
            let line = self.given[&open_name(idle)];
            return Err((line, "no descriptor holds this open file"));
        }
        let is_lost = |&slot: &usize| !tables.is_open(slot);
        if let Some(lost) = tables.unnamed_files().find(is_lost) {
            let line = self.given[&slot_name(lost)];
            return Err((line, "no open file has this file"));
        }
        Ok(self.tables)
    }
}

fn slot_name(slot: usize) -> String {
    format!("slot {slot}")
}

pub fn open_name(number: usize) -> String {
    format!("open {number}")
}
