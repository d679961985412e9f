//! Counts of situations, of the calls made in them, and of controls.

use super::ledger::Terms;
use super::run::Served;
use super::situation::{processes_of, Situation, SUPPOSITIONS};
use crate::action::Action;
use mritvelja::layout::*;
use std::collections::BTreeSet;

/// Situations with one supposition left out.
#[derive(Clone, Copy, Default)]
pub struct Control {
    pub tried: u64,
    pub calls: u64,
    /// Those in which the first claim did not hold.
    pub broken: u64,
}

#[derive(Default)]
pub struct Tally {
    situations: u64,
    /// Situations by the number of A's processes.
    callers: [u64; PROCESSES],
    several_groups: u64,
    foo_root: u64,
    foo_anothers: u64,
    pub calls: u64,
    borrows: u64,
    granted: u64,
    by_children: u64,
    terms: Terms,
    pub controls: [Control; SUPPOSITIONS.len()],
    pub differences: u64,
}

impl Tally {
    pub fn count_situation(&mut self, situation: &Situation) {
        let Situation {
            tables, user, foo, ..
        } = situation;
        let callers: Vec<usize> = processes_of(tables, *user).collect();
        let groups = callers
            .iter()
            .map(|&one| tables.process(one)[PROCESS_GROUP]);
        let groups: BTreeSet<u32> = groups.collect();
        self.situations += 1;
        self.callers[callers.len() - 1] += 1;
        self.several_groups += u64::from(groups.len() > 1);
        self.foo_root += u64::from(*foo == ROOT);
        self.foo_anothers += u64::from(tables.file(*foo)[FILE_OWNER] != *user);
    }

    pub fn count_call(&mut self, served: &Served) {
        self.calls += 1;
        self.borrows += u64::from(matches!(served.action, Action::Borrow(_)));
        self.granted += u64::from(served.answer.is_granted());
        self.by_children += u64::from(served.by_child);
    }

    pub fn count_terms(&mut self, terms: Terms) {
        self.terms.opened += terms.opened;
        self.terms.duplicated += terms.duplicated;
        self.terms.copied += terms.copied;
        self.terms.closed += terms.closed;
        self.terms.dropped += terms.dropped;
    }

    /// All calls, those of controls too.
    pub fn all_calls(&self) -> u64 {
        self.calls
            + self
                .controls
                .iter()
                .map(|control| control.calls)
                .sum::<u64>()
    }

    pub fn print(&self) {
        println!("\nsituations with a supposition left out, and those in which the claim broke");
        for (control, (_, name)) in self.controls.iter().zip(SUPPOSITIONS) {
            println!("{:>7} {:>7}  {name}", control.tried, control.broken);
        }
        println!("\nsituations by the number of A's processes");
        for (count, number) in self.callers.iter().zip(1..) {
            println!("{count:>7}  {number}");
        }
        println!(
            "\nownership: {} situations, {} of them with A in several groups, {} with the root as foo, {} with another's foo; {} calls on both programs, {} of them borrowing reads, {} granted, {} by children",
            self.situations, self.several_groups, self.foo_root, self.foo_anothers, self.calls, self.borrows, self.granted, self.by_children
        );
        let terms = &self.terms;
        println!(
            "descriptors: {} opened, {} duplicated, {} copied, {} closed, {} dropped",
            terms.opened, terms.duplicated, terms.copied, terms.closed, terms.dropped
        );
        let sum = |of: fn(&Control) -> u64| self.controls.iter().map(of).sum::<u64>();
        println!(
            "controls: {} situations with one of {} suppositions left out, {} calls on both programs, {} broke the claim",
            sum(|control| control.tried),
            SUPPOSITIONS.len(),
            sum(|control| control.calls),
            sum(|control| control.broken)
        );
        println!("differences in ownership: {}", self.differences);
    }
}
