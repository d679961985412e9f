//! What kind of store is to be made: how full, how deep, how strict.

use crate::chance::Chance;
use mritvelja::layout::{DESCRIPTORS, LABELS, OPEN_FILES, PROCESSES, PROMPTS, SLOTS};

/// Where new names go.
#[derive(Clone, Copy, PartialEq, Eq)]
pub enum Spread {
    /// Into the newest directory, so that chains get long.
    Deep,
    /// Into the oldest directory with room, so that directories get full.
    Wide,
    Even,
}

#[derive(Clone, Copy, PartialEq, Eq)]
pub enum Strictness {
    /// Nearly every right.
    Generous,
    /// More than half of the rights.
    Mixed,
    /// Rights by chance.
    Strict,
}

pub struct Shape {
    /// Named files, the root not counted.
    pub files: usize,
    /// How many of them are symbolic links, at most.
    pub symlinks: usize,
    /// How many in a hundred of them are directories.
    pub directories: usize,
    pub spread: Spread,
    pub processes: usize,
    pub open_files: usize,
    /// Open files without a name among the open ones, at most.
    pub unnamed: usize,
    /// Descriptors are given out process by process, so that some have all.
    pub packed: bool,
    /// Users, groups and labels are drawn from this many.
    pub users: usize,
    pub groups: usize,
    pub labels: usize,
    pub strictness: Strictness,
    /// How many in a hundred transitions lead somewhere.
    pub transitions: usize,
    /// How many in a hundred versions stand at the wrap.
    pub wrapping: usize,
    /// How many prompts the factory part has; without a number it is empty, and nothing has to do with /rom.
    pub prompts: Option<usize>,
}

impl Shape {
    pub fn random(chance: &mut Chance) -> Shape {
        Shape {
            prompts: Some(Shape::prompts(chance)),
            ..Shape::without_rom(chance)
        }
    }

    /// None, some or all.
    fn prompts(chance: &mut Chance) -> usize {
        match chance.below(8) {
            0..=2 => 0,
            3 => PROMPTS,
            _ => chance.between(1, PROMPTS),
        }
    }

    pub fn without_rom(chance: &mut Chance) -> Shape {
        let processes = chance.pick(&[1, 2, 3, 4, 4, 5, 6, 7, 8]);
        let most_open = (processes * DESCRIPTORS).min(OPEN_FILES);
        let open_files = match chance.below(5) {
            0 => 0,
            1 => most_open,
            _ => chance.below(most_open + 1),
        };
        let files = Shape::files(chance);
        Shape {
            files,
            symlinks: chance.pick(&[0, 0, 1, 3, 8, 12, 20]).min(files / 2),
            directories: chance.pick(&[10, 25, 40, 60]),
            spread: chance.pick(&[Spread::Deep, Spread::Wide, Spread::Even]),
            processes: processes.min(PROCESSES),
            open_files,
            unnamed: chance.pick(&[0, 1, 2, 5]),
            packed: chance.one_in(3),
            users: chance.pick(&[1, 2, 3, 4]),
            groups: chance.pick(&[1, 2, 3, 4]),
            labels: chance.pick(&[1, 2, 4, LABELS]),
            strictness: Shape::strictness(chance),
            transitions: chance.pick(&[0, 5, 30, 100]),
            wrapping: chance.pick(&[0, 20, 100]),
            prompts: None,
        }
    }

    /// Few, some or all slots.
    fn files(chance: &mut Chance) -> usize {
        match chance.below(6) {
            0 => chance.below(5),
            1 => SLOTS - 1,
            2 => chance.between(SLOTS - 8, SLOTS - 1),
            _ => chance.between(5, SLOTS - 12),
        }
    }

    fn strictness(chance: &mut Chance) -> Strictness {
        match chance.below(8) {
            0 => Strictness::Strict,
            1 | 2 => Strictness::Mixed,
            _ => Strictness::Generous,
        }
    }
}
