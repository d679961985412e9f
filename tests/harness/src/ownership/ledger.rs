//! The second claim: what each process holds, by the history of granted calls alone. The
//! tables are looked at where it starts, and to be compared with.

use crate::action::Action;
use mritvelja::calls::*;
use mritvelja::layout::*;
use mritvelja::{Answer, Tables};

/// The terms of the sum.
#[derive(Clone, Copy, Default)]
pub struct Terms {
    pub opened: u64,
    pub duplicated: u64,
    /// At forks.
    pub copied: u64,
    pub closed: u64,
    /// At exits.
    pub dropped: u64,
}

pub struct Ledger {
    has: [u64; PROCESSES],
    start: u64,
    pub terms: Terms,
}

impl Ledger {
    pub fn start(tables: &Tables) -> Ledger {
        let has = held(tables);
        Ledger {
            has,
            start: has.iter().sum(),
            terms: Terms::default(),
        }
    }

    /// Takes one more action in; a refused one is in no history, a borrowing read has no term.
    pub fn note(&mut self, action: &Action, answer: &Answer) {
        let Action::Call(call) = action else {
            return;
        };
        if !answer.is_granted() {
            return;
        }
        let process = usize::from(call.process);
        let had = self.has[process];
        let terms = &mut self.terms;
        match call.call {
            OPEN => {
                terms.opened += 1;
                self.has[process] = had + 1;
            }
            DUPLICATE => {
                terms.duplicated += 1;
                self.has[process] = had + 1;
            }
            CLOSE => {
                terms.closed += 1;
                self.has[process] = had.saturating_sub(1);
            }
            FORK => {
                terms.copied += had;
                self.has[answer.value as usize] = had;
            }
            EXIT => {
                terms.dropped += had;
                self.has[process] = 0;
            }
            _ => {}
        }
    }

    /// What of the tables the history does not tell, if anything.
    pub fn wrong(&self, tables: &Tables) -> Option<&'static str> {
        let held = held(tables);
        let Terms {
            opened,
            duplicated,
            copied,
            closed,
            dropped,
        } = self.terms;
        let gained = self.start + opened + duplicated + copied;
        if held != self.has {
            Some("a process holds more or fewer descriptors than its ledger says")
        } else if held.iter().sum::<u64>() + closed + dropped != gained {
            Some("the descriptors held, closed and dropped are not those gained")
        } else {
            None
        }
    }
}

/// How many descriptors each process holds.
fn held(tables: &Tables) -> [u64; PROCESSES] {
    std::array::from_fn(|process| {
        let descriptors = tables.descriptors(process).iter();
        descriptors.filter(|&&word| word != 0).count() as u64
    })
}
