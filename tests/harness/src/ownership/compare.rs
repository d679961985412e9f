//! Both claims in situations by chance, and controls that leave a supposition out.

use super::run::{Broken, Run};
use super::situation::{Situation, Supposition, SUPPOSITIONS};
use super::tally::Tally;
use crate::action::Action;
use crate::chance::Chance;

/// Keeps the chances of situations apart from those of calls.
const OWN_CHANCES: u64 = 0x0d1e_c709;
/// So many situations are tried for one control that has not broken the claim yet.
const MOST_TRIES: u64 = 2_000;

pub struct Ownership {
    seed: u64,
    chance: Chance,
    pub tally: Tally,
    /// The control that comes next.
    next: usize,
}

impl Ownership {
    pub fn new(seed: u64) -> Ownership {
        Ownership {
            seed,
            chance: Chance::new(seed ^ OWN_CHANCES),
            tally: Tally::default(),
            next: 0,
        }
    }

    /// A situation in which the claims must hold, and one for a control.
    pub fn compare_one(&mut self) {
        self.claim();
        self.control(self.next);
        self.next = (self.next + 1) % SUPPOSITIONS.len();
    }

    /// Controls that have not broken the claim yet, until they do. One that cannot shows
    /// that the calls do not get to what it is about. After a difference it says nothing.
    pub fn finish(&mut self) {
        for (number, (_, name)) in SUPPOSITIONS.iter().enumerate() {
            let mut tries = 0;
            while self.tally.controls[number].broken == 0 {
                if self.tally.differences > 0 {
                    return;
                }
                if tries == MOST_TRIES {
                    self.report(&format!("no run breaks the claim though {name}"), None);
                    return;
                }
                self.control(number);
                tries += 1;
            }
        }
    }

    fn claim(&mut self) {
        let Some(situation) = self.situation(None) else {
            return;
        };
        self.tally.count_situation(&situation);
        let mut run = Run::new(situation, None);
        for _ in 0..self.chance.between(10, 100) {
            if !run.goes_on() {
                break;
            }
            match run.step(&mut self.chance) {
                Ok(served) => self.tally.count_call(&served),
                Err((broken, action)) => {
                    let what = match broken {
                        Broken::Directory(what) => format!("{what} changed"),
                        Broken::Other(what) => what,
                    };
                    self.report(&what, Some(&action));
                    break;
                }
            }
        }
        self.tally.count_terms(run.terms());
    }

    /// A run that may break the first claim, and nothing else.
    fn control(&mut self, number: usize) {
        let left_out = Some(SUPPOSITIONS[number].0);
        let Some(situation) = self.situation(left_out) else {
            return;
        };
        self.tally.controls[number].tried += 1;
        let mut run = Run::new(situation, left_out);
        for _ in 0..self.chance.between(10, 60) {
            if !run.goes_on() {
                return;
            }
            self.tally.controls[number].calls += 1;
            match run.step(&mut self.chance) {
                Ok(_) => {}
                Err((Broken::Directory(_), _)) => {
                    self.tally.controls[number].broken += 1;
                    return;
                }
                Err((Broken::Other(what), action)) => {
                    self.report(&what, Some(&action));
                    return;
                }
            }
        }
    }

    /// One that fits: all is as supposed but what is left out.
    fn situation(&mut self, left_out: Option<Supposition>) -> Option<Situation> {
        let situation = Situation::random(&mut self.chance, left_out)?;
        let of_tables = left_out.filter(|&left_out| left_out != Supposition::NoOtherCaller);
        let expected: Vec<Supposition> = of_tables.into_iter().collect();
        let failing = situation.failing();
        if failing != expected || !situation.is_placed() {
            let what = format!("a situation without {expected:?} is without {failing:?}");
            self.report(&what, None);
            return None;
        }
        Some(situation)
    }

    fn report(&mut self, what: &str, action: Option<&Action>) {
        self.tally.differences += 1;
        println!("DIFFERENCE: ownership: {what}");
        println!("  seed {}, call {}", self.seed, self.tally.all_calls());
        if let Some(action) = action {
            println!("  call: {action}");
        }
    }
}
