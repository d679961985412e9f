//! Both programs on the same stores and calls, compared after each call.

use crate::action::{Action, Borrow};
use crate::call::Call;
use crate::chance::Chance;
use crate::defects::{self, Defect};
use crate::difference::first_difference;
use crate::generate::{random_store, CallMaker};
use crate::ownership::compare::Ownership;
use crate::programs::*;
use crate::scripts::compare::Scripts;
use crate::secrecy;
use crate::sizes;
use crate::tally::Tally;
use mritvelja::calls::{READ, RENAME};
use mritvelja::layout::{BLOCK, SLOTS};
use mritvelja::{Answer, Tables};

/// After so many differences the run ends: more would say the same.
const MOST_DIFFERENCES: u64 = 10;
/// One script is run for so many calls.
const CALLS_A_SCRIPT: u64 = 200;
/// One call in a situation of ownership is made for so many calls.
const CALLS_AN_OWN_CALL: u64 = 10;

pub struct Comparison {
    seed: u64,
    chance: Chance,
    defects: Vec<Defect>,
    tally: Tally,
    scripts: Scripts,
    ownership: Ownership,
    /// The tables of the proved store, of the second program, and before the call.
    store: Tables,
    reference: Tables,
    before: Tables,
}

impl Comparison {
    pub fn new(seed: u64) -> Comparison {
        let defects = defects::all();
        Comparison {
            seed,
            chance: Chance::new(seed),
            tally: Tally::new(defects.len()),
            scripts: Scripts::new(seed),
            ownership: Ownership::new(seed),
            defects,
            store: Tables::empty(),
            reference: Tables::empty(),
            before: Tables::empty(),
        }
    }

    /// Makes so many calls, one in ten more on pairs of stores, those of whole scripts
    /// and those in situations of ownership. Answers whether there was no difference.
    pub fn run(&mut self, calls: u64) -> bool {
        while self.tally.answers.all() < calls && self.differences() < MOST_DIFFERENCES {
            self.run_store(calls);
            if 10 * self.tally.pair_calls < self.tally.answers.all() {
                self.run_pair();
            }
            self.run_scripts();
            self.run_ownership();
        }
        self.ownership.finish();
        self.tally.print(&self.defects);
        self.scripts.tally.print();
        self.ownership.tally.print();
        println!("differences: {}", self.differences());
        self.differences() == 0
    }

    fn differences(&self) -> u64 {
        self.tally.differences + self.scripts.tally.differences + self.ownership.tally.differences
    }

    /// As many scripts as go with the calls made.
    fn run_scripts(&mut self) {
        while CALLS_A_SCRIPT * self.scripts.tally.scripts < self.tally.answers.all()
            && self.differences() < MOST_DIFFERENCES
        {
            self.scripts.compare_one();
        }
    }

    /// As many calls in situations of ownership as go with the calls made.
    fn run_ownership(&mut self) {
        while CALLS_AN_OWN_CALL * self.ownership.tally.all_calls() < self.tally.answers.all()
            && self.differences() < MOST_DIFFERENCES
        {
            self.ownership.compare_one();
        }
    }

    /// A list of calls on one store.
    fn run_store(&mut self, calls: u64) {
        self.before = random_store(&mut self.chance);
        self.tally.stores += 1;
        self.tally.features.count(&self.before);
        self.tally.stale.start();
        if !(store_sound(&self.before) && reference_sound(&self.before)) {
            self.report("a store made to be sound is not", None, None);
            return;
        }
        self.store.clone_from(&self.before);
        self.reference.clone_from(&self.before);
        let mut maker = CallMaker::new(&self.before);
        for _ in 0..self.chance.between(20, 400) {
            if self.tally.answers.all() >= calls || !self.step(&mut maker) {
                return;
            }
        }
    }

    /// One action, or one on an unsound copy. False after a difference.
    fn step(&mut self, maker: &mut CallMaker) -> bool {
        let action = maker.action(&mut self.chance, &self.before);
        if self.chance.one_in(50) {
            return self.try_unsound(&action);
        }
        let alike = match &action {
            Action::Call(call) => !self.chance.one_in(10) || self.act(call),
            Action::Borrow(borrow) => self.read_alike(borrow),
        };
        if !alike {
            return false;
        }
        let Some(answer) = self.try_both(&action) else {
            return false;
        };
        if answer.refusal == 1 {
            let answers = Some((&answer, &answer));
            self.report("a sound store became unsound", Some(&action), answers);
            return false;
        }
        let tables = [&self.before, &self.store];
        self.tally.stale.count(tables, &action, &answer);
        if answer.is_granted() {
            self.before.clone_from(&self.store);
            if action.changes_names() {
                maker.refresh(&self.before);
            }
        }
        true
    }

    /// The action on both stores; no answer after a difference.
    fn try_both(&mut self, action: &Action) -> Option<Answer> {
        let outcome = store_action(&mut self.store, action);
        let other = reference_action(&mut self.reference, action);
        self.tally
            .answers
            .count(action.row(), outcome.answer.refusal);
        if !self.judge("", action, [&outcome, &other]) {
            return None;
        }
        if let Action::Call(call) = action {
            self.tally.walks.count(&self.before, call, &outcome.answer);
            let renames = &mut self.tally.renames;
            renames.count(&self.before, call, &outcome.answer);
        }
        let tables = [&self.before, &self.store];
        self.tally.prompts.count(tables, action, &outcome);
        Some(outcome.answer)
    }

    /// The call without the soundness test, on the sound stores, which are put back.
    fn act(&mut self, call: &Call) -> bool {
        self.tally.acts += 1;
        let ours = outcome(call, |buffer| store_act(&mut self.store, call, buffer));
        let theirs = outcome(call, |buffer| {
            store_form(reference_act(&mut self.reference, call, buffer))
        });
        let action = Action::Call(call.clone());
        let alike = self.judge("without the soundness test, ", &action, [&ours, &theirs]);
        self.restore();
        alike
    }

    /// Whether a read into a buffer of as many bytes comes to the same as the borrowing read; the stores are put back.
    fn read_alike(&mut self, borrow: &Borrow) -> bool {
        if borrow.count > BLOCK as u32 {
            return true;
        }
        let read = Call {
            process: borrow.process,
            call: READ,
            descriptor: borrow.descriptor,
            number: 0,
            path: Vec::new(),
            data: Vec::new(),
            buffer: vec![0; borrow.count as usize],
        };
        let action = Action::Borrow(*borrow);
        let borrowed = store_action(&mut self.store, &action);
        let copied = store_action(&mut self.reference, &Action::Call(read));
        let bytes = &copied.bytes[..copied.answer.value as usize];
        let alike = borrowed.answer == copied.answer
            && borrowed.bytes == bytes
            && self.store == self.reference;
        if !alike {
            let answers = Some((&borrowed.answer, &copied.answer));
            self.report("a read of as many bytes differs", Some(&action), answers);
        }
        self.restore();
        alike
    }

    /// Whether both programs left the same, and a refused action nothing.
    fn judge(&mut self, how: &str, action: &Action, [ours, theirs]: [&Outcome; 2]) -> bool {
        let refused = !ours.answer.is_granted();
        let what = if ours.answer != theirs.answer {
            "the answers differ"
        } else if ours.bytes != theirs.bytes {
            "the bytes differ"
        } else if ours.lent != theirs.lent {
            "the bytes lie elsewhere"
        } else if self.store != self.reference {
            "the tables differ"
        } else if refused && (self.store != self.before || ours.bytes != action.untouched()) {
            "a refused call changed something"
        } else {
            return true;
        };
        let answers = Some((&ours.answer, &theirs.answer));
        self.report(&format!("{how}{what}"), Some(action), answers);
        false
    }

    /// Puts both stores back to what they were before the call.
    fn restore(&mut self) {
        self.store.clone_from(&self.before);
        self.reference.clone_from(&self.before);
    }

    /// The action on a store with a defect, of another size or altered by chance.
    fn try_unsound(&mut self, action: &Action) -> bool {
        let sound = self.before.clone();
        let what = self.spoil();
        self.restore();
        let judged = [store_sound(&self.before), reference_sound(&self.before)];
        let alike = match (judged, &what) {
            ([false, false], _) => self.expect(action, |refusal| refusal == 1),
            ([true, true], None) => {
                self.tally.altered_sound += 1;
                self.expect(action, |refusal| refusal != 1)
            }
            _ => {
                let what = what.as_deref().unwrap_or("words altered by chance");
                self.report(&format!("{what}: sound is {judged:?}"), None, None);
                false
            }
        };
        self.before = sound;
        self.restore();
        alike
    }

    /// The action on both stores, with a refusal that fits their soundness.
    fn expect(&mut self, action: &Action, fits: impl Fn(u32) -> bool) -> bool {
        let Some(answer) = self.try_both(action) else {
            return false;
        };
        if !fits(answer.refusal) {
            let answers = Some((&answer, &answer));
            self.report("refusal 1 and soundness do not fit", Some(action), answers);
        }
        fits(answer.refusal)
    }

    /// Spoils the store at hand; answers how, if it is unsound for certain.
    fn spoil(&mut self) -> Option<String> {
        match self.chance.below(8) {
            0 => {
                let table = sizes::resize(&mut self.before, &mut self.chance);
                self.tally.sizes[table] += 1;
                Some(format!("another size of {}", sizes::TABLES[table]))
            }
            1 => {
                alter(&mut self.before, &mut self.chance);
                self.tally.altered += 1;
                None
            }
            _ => Some(self.add_defect()),
        }
    }

    /// A defect by chance, or the next that this store has a place for.
    fn add_defect(&mut self) -> String {
        let sound = self.before.clone();
        let mut number = self.chance.below(self.defects.len());
        loop {
            let defect = &self.defects[number];
            if (defect.make)(&mut self.before, &mut self.chance).is_some() {
                self.tally.defects[number] += 1;
                return format!("\"{}\": {}", defect.clause, defect.name);
            }
            self.before.clone_from(&sound);
            number = self.chance.below(self.defects.len());
        }
    }

    fn run_pair(&mut self) {
        let Some(mut pair) = secrecy::Pair::random(&mut self.chance) else {
            return;
        };
        self.tally.pairs += 1;
        self.tally.pairs_linked += u64::from(pair.has_links());
        self.tally.pairs_prompted += u64::from(pair.has_prompts());
        self.tally.pairs_read += u64::from(pair.has_reader());
        for _ in 0..self.chance.between(10, 100) {
            self.tally.pair_calls += 1;
            match pair.step(&mut self.chance) {
                Ok(Action::Borrow(_)) => self.tally.pair_borrows += 1,
                Ok(Action::Call(call)) => {
                    self.tally.renames.in_pairs += u64::from(call.call == RENAME);
                }
                Err((what, action)) => {
                    self.store.clone_from(&pair.one);
                    self.reference.clone_from(&pair.other);
                    let what = format!("secrecy of slot {}: {what}", pair.slot);
                    self.report(&what, Some(&action), None);
                    return;
                }
            }
        }
        self.tally.pairs_freed += u64::from(pair.freed);
        for (sum, refused) in self.tally.pair_refused.iter_mut().zip(pair.refused) {
            *sum += refused;
        }
    }

    fn report(&mut self, what: &str, action: Option<&Action>, answers: Option<(&Answer, &Answer)>) {
        self.tally.differences += 1;
        println!("DIFFERENCE: {what}");
        println!("  seed {}, call {}", self.seed, self.tally.answers.all());
        if let Some(action) = action {
            println!("  call: {action}");
        }
        if let Some((store, reference)) = answers {
            println!("  store:     {store:?}\n  reference: {reference:?}");
        }
        match first_difference(&self.store, &self.reference) {
            Some(word) => println!("  first differing word: {word}"),
            None => println!("  the tables are equal"),
        }
    }
}

/// Alters up to three words of any tables.
fn alter(tables: &mut Tables, chance: &mut Chance) {
    for _ in 0..chance.between(1, 3) {
        let any = chance.word() as u32;
        let small = chance.below(20) as u32;
        let word = chance.pick(&[0, 1, 2, small, SLOTS as u32, 512, 1 << 31, u32::MAX, any]);
        let table = chance.below(if tables.rom.is_empty() { 5 } else { 6 });
        match table {
            0 => put(&mut tables.files, word, chance),
            1 => put(&mut tables.contents, word as u8, chance),
            2 => put(&mut tables.open_files, word, chance),
            3 => put(&mut tables.processes, word, chance),
            4 => put(&mut tables.policy, word as u8, chance),
            _ => put(&mut tables.rom, word as u8, chance),
        }
    }
}

fn put<T>(table: &mut [T], word: T, chance: &mut Chance) {
    let at = chance.below(table.len());
    table[at] = word;
}
