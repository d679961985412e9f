//! The lines of a block, to be spoilt.

use super::block::Block;
use crate::chance::Chance;

/// How many of the lines hold a number, the first ones.
pub const NUMBERS: usize = 4;
pub const DESCRIPTOR: usize = 2;
pub const NUMBER: usize = 3;
pub const PATH: usize = 4;
pub const DATA: usize = 5;

/// Lines, six before anything is done to them, each with its key and its end.
pub struct Lines {
    pub lines: Vec<Vec<u8>>,
}

impl Lines {
    pub fn of(block: &Block) -> Lines {
        Lines {
            lines: block.lines().to_vec(),
        }
    }

    pub fn text(&self) -> Vec<u8> {
        self.lines.concat()
    }

    /// The number of any line.
    pub fn any(&self, chance: &mut Chance) -> usize {
        chance.below(self.lines.len())
    }

    /// What stands between a line's key and its end.
    pub fn value(&self, line: usize) -> &[u8] {
        let line = &self.lines[line];
        &line[key_length(line)..line.len() - 1]
    }

    pub fn set_value(&mut self, line: usize, value: &[u8]) {
        let old = &self.lines[line];
        let key = &old[..key_length(old)];
        self.lines[line] = [key, value, b"\n"].concat();
    }

    /// Puts bytes into a line, at a place counted from its start.
    pub fn insert(&mut self, line: usize, at: usize, bytes: &[u8]) {
        self.lines[line].splice(at..at, bytes.iter().copied());
    }

    /// Puts bytes before a line's last byte, its end.
    pub fn insert_at_end(&mut self, line: usize, bytes: &[u8]) {
        let at = self.lines[line].len() - 1;
        self.insert(line, at, bytes);
    }

    /// Puts a byte anywhere into a line's value.
    pub fn insert_into_value(&mut self, line: usize, byte: u8, chance: &mut Chance) {
        let start = key_length(&self.lines[line]);
        let at = chance.between(start, self.lines[line].len() - 1);
        self.insert(line, at, &[byte]);
    }
}

/// The length of a line's key, its sign included.
pub fn key_length(line: &[u8]) -> usize {
    let sign = line.iter().position(|&byte| byte == b'=');
    sign.map_or(0, |at| at + 1)
}
