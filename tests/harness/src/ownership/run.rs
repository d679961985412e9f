//! One situation and the calls made in it, on both programs.

use super::aim::Aim;
use super::kept::Kept;
use super::ledger::{Ledger, Terms};
use super::situation::{processes_of, Situation, Supposition};
use crate::action::Action;
use crate::call::Call;
use crate::chance::Chance;
use crate::programs::{reference_action, store_action};
use mritvelja::calls::{EXIT, FORK};
use mritvelja::layout::PROCESSES;
use mritvelja::{Answer, Tables};

/// What was asked, by whom, and what it was answered.
pub struct Served {
    pub action: Action,
    pub answer: Answer,
    /// Whether the caller was forked since the start.
    pub by_child: bool,
}

/// What an action showed to be otherwise than claimed.
pub enum Broken {
    /// Foo or bar did not stay as they were, on both programs.
    Directory(&'static str),
    /// Anything else, which no supposition is needed for.
    Other(String),
}

/// One program's tables, and what its own answers tell of them.
struct Side {
    tables: Tables,
    ledger: Ledger,
}

pub struct Run {
    situation: Situation,
    kept: Kept,
    aim: Aim,
    /// The proved store and the second program.
    sides: [Side; 2],
    children: [bool; PROCESSES],
}

impl Run {
    pub fn new(situation: Situation, left_out: Option<Supposition>) -> Run {
        let side = || Side {
            tables: situation.tables.clone(),
            ledger: Ledger::start(&situation.tables),
        };
        Run {
            kept: Kept::of(&situation),
            aim: Aim::at(&situation, left_out),
            sides: [side(), side()],
            children: [false; PROCESSES],
            situation,
        }
    }

    /// Whether any of A's processes is left.
    pub fn goes_on(&self) -> bool {
        let mut callers = processes_of(&self.sides[0].tables, self.situation.user);
        callers.next().is_some()
    }

    pub fn terms(&self) -> Terms {
        self.sides[0].ledger.terms
    }

    /// One action on both programs, after which both claims are looked at on each.
    pub fn step(&mut self, chance: &mut Chance) -> Result<Served, (Broken, Action)> {
        let [store, reference] = &mut self.sides;
        let action = self.aim.action(chance, &store.tables);
        let outcome = store_action(&mut store.tables, &action);
        let other = reference_action(&mut reference.tables, &action);
        store.ledger.note(&action, &outcome.answer);
        reference.ledger.note(&action, &other.answer);
        if let Some(broken) = self.broken() {
            return Err((broken, action));
        }
        if outcome != other || self.sides[0].tables != self.sides[1].tables {
            let what = "the programs differ".to_string();
            return Err((Broken::Other(what), action));
        }
        if action.changes_names() && outcome.answer.is_granted() {
            self.aim.refresh(&self.sides[0].tables);
        }
        Ok(self.served(action, outcome.answer))
    }

    fn broken(&self) -> Option<Broken> {
        let [store, reference] = &self.sides;
        for (side, name) in [(store, "store"), (reference, "reference")] {
            if let Some(what) = side.ledger.wrong(&side.tables) {
                return Some(Broken::Other(format!("{name}: {what}")));
            }
        }
        let changed = |side: &Side| self.kept.changed(&self.situation, &side.tables);
        match (changed(store), changed(reference)) {
            (None, None) => None,
            (Some(what), Some(_)) => Some(Broken::Directory(what)),
            (ours, theirs) => {
                let what = format!("foo or bar changed, store {ours:?}, reference {theirs:?}");
                Some(Broken::Other(what))
            }
        }
    }

    fn served(&mut self, action: Action, answer: Answer) -> Served {
        let caller = match &action {
            Action::Call(call) => call.process,
            Action::Borrow(borrow) => borrow.process,
        };
        let is_child = self.children.get_mut(usize::from(caller));
        let by_child = is_child.is_some_and(|is_child| *is_child);
        match &action {
            Action::Call(Call { call: FORK, .. }) if answer.is_granted() => {
                self.children[answer.value as usize] = true;
            }
            Action::Call(Call { call: EXIT, .. }) if answer.is_granted() => {
                self.children[usize::from(caller)] = false;
            }
            _ => {}
        }
        Served {
            action,
            answer,
            by_child,
        }
    }
}
