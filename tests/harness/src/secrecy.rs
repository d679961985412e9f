//! Pairs of stores that differ in a secret: the bytes of a plain file that no
//! label may read, whoever has it open. The same calls and borrowing reads on both
//! must not tell them apart; the factory part is the same.

use crate::action::Action;
use crate::chance::Chance;
use crate::generate::{random_store, CallMaker};
use crate::held;
use crate::programs::{store_action, store_sound};
use mritvelja::layout::*;
use mritvelja::{calls, refusals, Tables};

pub struct Pair {
    pub one: Tables,
    pub other: Tables,
    /// The slot with the secret.
    pub slot: usize,
    pub freed: bool,
    /// Reads, and borrowing reads, refused with 10 by who has the secret open for reading.
    pub refused: [u64; 2],
    maker: CallMaker,
}

impl Pair {
    /// A pair from a store by chance, if it has a file that can be a secret.
    pub fn random(chance: &mut Chance) -> Option<Pair> {
        let mut one = random_store(chance);
        let fits = |slot| one.is_kind(slot, PLAIN) && one.file(slot)[FILE_LENGTH] > 0;
        let open = match chance.percent(75) {
            true => chance.pick_where(SLOTS, |slot| fits(slot) && is_read(&one, slot)),
            false => None,
        };
        let slot = open.or_else(|| chance.pick_where(SLOTS, fits))?;
        hide(&mut one, slot, chance);
        let mut other = one.clone();
        let length = one.file(slot)[FILE_LENGTH] as usize;
        let bytes = chance.bytes(length);
        other.block_mut(slot)[..length].copy_from_slice(&bytes);
        let mut maker = CallMaker::new(&one);
        maker.favourite = Some(slot);
        let sound = store_sound(&one) && store_sound(&other);
        sound.then_some(Pair {
            one,
            other,
            slot,
            freed: false,
            refused: [0; 2],
            maker,
        })
    }

    pub fn has_links(&self) -> bool {
        (0..SLOTS).any(|slot| self.one.is_kind(slot, LINK))
    }

    pub fn has_prompts(&self) -> bool {
        !self.one.rom.is_empty()
    }

    /// Whether some process has the secret open for reading.
    pub fn has_reader(&self) -> bool {
        is_read(&self.one, self.slot)
    }

    /// One action on both stores, which is answered; an error says what told them apart.
    pub fn step(&mut self, chance: &mut Chance) -> Result<Action, (&'static str, Action)> {
        let action = self.maker.action(chance, &self.one);
        let reader = self.reader(&action);
        let outcome = store_action(&mut self.one, &action);
        let other = store_action(&mut self.other, &action);
        if outcome.answer != other.answer {
            return Err(("the answers differ", action));
        }
        if outcome != other {
            return Err(("the bytes differ", action));
        }
        if let Some(way) = reader {
            if outcome.answer.is_granted() {
                return Err(("the secret is read", action));
            }
            self.refused[way] += u64::from(outcome.answer.refusal == refusals::LABEL_FORBIDS);
        }
        // A slot that is given out again is no secret any more.
        self.freed |= self.one.is_kind(self.slot, FREE);
        if !self.alike() {
            return Err(("the stores differ in more than the secret", action));
        }
        if action.changes_names() {
            self.maker.refresh(&self.one);
        }
        Ok(action)
    }

    /// Whether the action reads by a descriptor that has the secret open for reading: 0 for a read, 1 for a borrowing
    /// one.
    fn reader(&self, action: &Action) -> Option<usize> {
        let (way, process, descriptor) = match action {
            Action::Call(call) if call.call == calls::READ => (0, call.process, call.descriptor),
            Action::Call(_) => return None,
            Action::Borrow(borrow) => (1, borrow.process, borrow.descriptor),
        };
        let open_file = held::open_file(&self.one, process, descriptor)?;
        (!self.freed && held::reads(&self.one, open_file, self.slot)).then_some(way)
    }

    /// Equal but for the secret; once freed, equal altogether.
    fn alike(&self) -> bool {
        let secret = if self.freed {
            0..0
        } else {
            let start = BLOCK * self.slot;
            start..start + self.one.file(self.slot)[FILE_LENGTH] as usize
        };
        let (one, other) = (&self.one, &self.other);
        one.files == other.files
            && one.open_files == other.open_files
            && one.processes == other.processes
            && one.policy == other.policy
            && one.rom == other.rom
            && one.contents[..secret.start] == other.contents[..secret.start]
            && one.contents[secret.end..] == other.contents[secret.end..]
    }
}

/// Whether some open file is on the slot, and open for reading.
fn is_read(tables: &Tables, slot: usize) -> bool {
    (0..OPEN_FILES).any(|open_file| held::reads(tables, open_file, slot))
}

/// Takes the right to read the slot from every label that is held or can be
/// reached. Open files stay as they are: they are no right.
fn hide(tables: &mut Tables, slot: usize, chance: &mut Chance) {
    if chance.one_in(2) {
        tables.file_mut(slot)[FILE_LABEL] = LABELS as u32 - 1;
    }
    let file_label = tables.file(slot)[FILE_LABEL] as usize;
    for (label, reached) in reachable(tables).into_iter().enumerate() {
        if reached {
            tables.policy[LABELS * label + file_label] &= !(READ as u8);
        }
    }
}

/// Which labels a process holds, or can come to hold by any transitions.
pub fn reachable(tables: &Tables) -> [bool; LABELS] {
    let mut reached = [false; LABELS];
    let mut found: Vec<usize> = (0..PROCESSES)
        .filter(|&process| tables.process(process)[PROCESS_USED] == 1)
        .map(|process| tables.process(process)[PROCESS_LABEL] as usize)
        .collect();
    while let Some(label) = found.pop() {
        if std::mem::replace(&mut reached[label], true) {
            continue;
        }
        let transitions = &tables.policy[RIGHTS_SIZE + LABELS * label..][..LABELS];
        let to = transitions.iter().filter(|&&to| to != NO_TRANSITION);
        found.extend(to.map(|&to| usize::from(to)));
    }
    reached
}
