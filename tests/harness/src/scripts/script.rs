//! Scripts by chance, each for a store of its own.

use super::block::Block;
use super::blocks::{block, block_of};
use super::breaks::WAYS;
use super::given::Given;
use super::lines::Lines;
use super::run::run;
use crate::call::changes_names;
use crate::chance::Chance;
use crate::defects::Defect;
use crate::generate::{random_store, CallMaker};
use crate::programs::reference_replay;
use crate::sizes;
use mritvelja::Tables;

pub const MOST_BLOCKS: usize = 30;

/// A script and the store that it is run on.
pub struct Script {
    pub start: Tables,
    pub text: Vec<u8>,
    /// The way in which one of its blocks is broken, by its number.
    pub broken: Option<usize>,
    /// Whether the store has a defect or a table of another size.
    pub spoilt: bool,
}

/// A script in the making: the store as its calls so far leave it.
struct Author<'a> {
    chance: &'a mut Chance,
    tables: Tables,
    maker: CallMaker,
    text: Vec<u8>,
}

impl Script {
    pub fn random(chance: &mut Chance, defects: &[Defect]) -> Script {
        let start = random_store(chance);
        let mut author = Author {
            chance,
            maker: CallMaker::new(&start),
            tables: start.clone(),
            text: Vec::new(),
        };
        author.add_blocks(MOST_BLOCKS);
        let broken = author.chance.percent(45).then(|| author.add_broken());
        let mut script = Script {
            start,
            text: author.text,
            broken,
            spoilt: false,
        };
        if chance.one_in(8) {
            script.spoilt = spoil(&mut script.start, chance, defects);
        }
        script
    }
}

impl Author<'_> {
    fn add_blocks(&mut self, most: usize) {
        for _ in 0..self.chance.between(0, most) {
            let block = block(self.chance, &self.maker, &self.tables);
            self.make(&block);
            self.text.extend(block.text());
        }
    }

    /// A broken block, and a few after it half of the time; the way is answered.
    fn add_broken(&mut self) -> usize {
        let number = self.chance.below(WAYS.len());
        let way = &WAYS[number];
        let block = block_of(self.chance, &self.maker, &self.tables, way.shows);
        let mut lines = Lines::of(&block);
        (way.make)(&mut lines, self.chance);
        self.text.extend(lines.text());
        if self.chance.one_in(2) {
            self.add_blocks(2);
        }
        number
    }

    /// Makes the block's call, so that later ones fit what it leaves.
    fn make(&mut self, block: &Block) {
        let done = run(reference_replay, &self.tables, &block.text(), Given::AMPLE);
        self.tables = done.tables;
        if changes_names(block.call) {
            self.maker.refresh(&self.tables);
        }
    }
}

/// Gives the store a defect or one table another size; false where it has no
/// place for the defect.
pub fn spoil(tables: &mut Tables, chance: &mut Chance, defects: &[Defect]) -> bool {
    if chance.one_in(3) {
        sizes::resize(tables, chance);
        return true;
    }
    let sound = tables.clone();
    let defect = &defects[chance.below(defects.len())];
    let made = (defect.make)(tables, chance).is_some();
    if !made {
        *tables = sound;
    }
    made
}
