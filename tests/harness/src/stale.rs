//! Reads and writes by processes that execute gave another label since they came to hold the descriptor: shows that the
//! calls by chance get there.

use crate::action::Action;
use crate::answers::Answers;
use crate::call::BORROW;
use mritvelja::calls::*;
use mritvelja::layout::{DESCRIPTORS, PROCESSES, PROCESS_LABEL};
use mritvelja::{Answer, Tables};

#[derive(Default)]
pub struct Stale {
    /// Descriptors that their process held when an execute gave it another label, in the store at hand.
    held: [[bool; DESCRIPTORS]; PROCESSES],
    /// Executes that gave another label to a process with descriptors.
    moved: u64,
    /// Answers to what reads or writes by such a descriptor.
    met: Answers,
}

impl Stale {
    /// To be called when a store is begun.
    pub fn start(&mut self) {
        self.held = Default::default();
    }

    /// Counts an action, which the store at hand keeps, by what it met.
    pub fn count(&mut self, tables: [&Tables; 2], action: &Action, answer: &Answer) {
        let (call, process, descriptor) = match action {
            Action::Call(call) => (call.call, call.process, call.descriptor),
            Action::Borrow(borrow) => (READ, borrow.process, borrow.descriptor),
        };
        let (process, descriptor) = (usize::from(process), usize::from(descriptor));
        let held = self.held.get(process).and_then(|held| held.get(descriptor));
        if matches!(call, READ | WRITE) && held == Some(&true) {
            self.met.count(action.row(), answer.refusal);
        }
        if answer.is_granted() {
            self.follow(tables, call, [process, descriptor, answer.value as usize]);
        }
    }

    /// What becomes of the descriptors by a granted call.
    fn follow(
        &mut self,
        [before, after]: [&Tables; 2],
        call: u8,
        [process, descriptor, value]: [usize; 3],
    ) {
        match call {
            EXECUTE => {
                let [old, new] =
                    [before, after].map(|tables| tables.process(process)[PROCESS_LABEL]);
                if old != new {
                    let words = after.descriptors(process);
                    self.held[process] = std::array::from_fn(|number| words[number] != 0);
                    self.moved += u64::from(self.held[process].contains(&true));
                }
            }
            FORK => self.held[value] = self.held[process],
            EXIT => self.held[process] = Default::default(),
            DUPLICATE => self.held[process][value] = self.held[process][descriptor],
            CLOSE => self.held[process][descriptor] = false,
            _ => {}
        }
    }

    pub fn print(&self) {
        println!("\nof these by a descriptor held since before its process got another label");
        self.met.print_rows([READ.into(), WRITE.into(), BORROW]);
        let moved = self.moved;
        println!("{moved:>7}  executes that gave another label to a process with descriptors");
    }
}
