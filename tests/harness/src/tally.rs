//! Counts of what was tried and answered.

use crate::answers::Answers;
use crate::defects::Defect;
use crate::features::Features;
use crate::prompts::Prompts;
use crate::renames::Renames;
use crate::sizes;
use crate::stale::Stale;
use crate::walks::Walks;

pub struct Tally {
    pub answers: Answers,
    pub stores: u64,
    pub features: Features,
    pub renames: Renames,
    pub walks: Walks,
    pub prompts: Prompts,
    pub stale: Stale,
    pub acts: u64,
    /// Stores by their defect.
    pub defects: Vec<u64>,
    /// Stores by the table that had another size.
    pub sizes: [u64; sizes::TABLES.len()],
    /// Stores with words altered by chance, and those of them that stayed sound.
    pub altered: u64,
    pub altered_sound: u64,
    pub pairs: u64,
    /// Pairs with symbolic links, with prompts, and with the secret open for reading.
    pub pairs_linked: u64,
    pub pairs_prompted: u64,
    pub pairs_read: u64,
    pub pair_calls: u64,
    pub pair_borrows: u64,
    /// Reads, and borrowing reads, of the secret by who has it open.
    pub pair_refused: [u64; 2],
    pub pairs_freed: u64,
    pub differences: u64,
}

impl Tally {
    pub fn new(defects: usize) -> Tally {
        Tally {
            answers: Answers::default(),
            stores: 0,
            features: Features::default(),
            renames: Renames::default(),
            walks: Walks::default(),
            prompts: Prompts::default(),
            stale: Stale::default(),
            acts: 0,
            defects: vec![0; defects],
            sizes: [0; sizes::TABLES.len()],
            altered: 0,
            altered_sound: 0,
            pairs: 0,
            pairs_linked: 0,
            pairs_prompted: 0,
            pairs_read: 0,
            pair_calls: 0,
            pair_borrows: 0,
            pair_refused: [0; 2],
            pairs_freed: 0,
            differences: 0,
        }
    }

    pub fn print(&self, defects: &[Defect]) {
        self.answers.print();
        self.features.print();
        self.renames.print();
        self.walks.print();
        self.prompts.print();
        self.stale.print();
        self.print_defects(defects);
        let (calls, granted) = (self.answers.all(), self.answers.granted());
        println!(
            "\n{calls} calls, {} of them borrowing reads, on {} sound stores: {granted} granted ({:.1} %), {} refused; {} of them also without the soundness test",
            self.answers.borrows(),
            self.stores,
            100.0 * granted as f64 / calls.max(1) as f64,
            calls - granted,
            self.acts
        );
        self.print_pairs();
        println!("differences in calls: {}", self.differences);
    }

    fn print_pairs(&self) {
        println!(
            "secrecy: {} pairs of stores, {} of them with symbolic links, {} with prompts, {} with the secret open for reading; {} calls on both, {} of them borrowing reads, {} files freed on the way",
            self.pairs,
            self.pairs_linked,
            self.pairs_prompted,
            self.pairs_read,
            self.pair_calls,
            self.pair_borrows,
            self.pairs_freed
        );
        let [reads, borrows] = self.pair_refused;
        println!("secrecy: who had the secret open was refused with 10: {reads} reads, {borrows} borrowing reads");
    }

    fn print_defects(&self, defects: &[Defect]) {
        println!("\nstores made unsound by one defect");
        for (defect, tried) in defects.iter().zip(&self.defects) {
            println!("{tried:>7}  \"{}\": {}", defect.clause, defect.name);
        }
        for (table, tried) in sizes::TABLES.iter().zip(&self.sizes) {
            println!("{tried:>7}  another size: {table}");
        }
        println!(
            "{:>7}  words altered by chance; {} stayed sound",
            self.altered, self.altered_sound
        );
    }
}
