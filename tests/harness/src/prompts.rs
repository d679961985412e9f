//! What was done with /rom, the prompts and borrowed bytes: shows that the calls by chance get there.

use crate::action::Action;
use crate::answers::Answers;
use crate::call::Call;
use crate::programs::Outcome;
use crate::rom::{self, ROM};
use crate::tree::{self, Way};
use mritvelja::calls::{CLOSE, DUPLICATE, EXIT, FORK, LINK, RENAME};
use mritvelja::layout::{DESCRIPTORS, FOLLOWS, OPEN_FILES, OPEN_SLOT, PROCESSES, ROOT};
use mritvelja::{refusals, Tables};

#[derive(Default)]
pub struct Prompts {
    /// Answers to what had to do with /rom, a prompt or a descriptor of one.
    met: Answers,
    /// Lists of the root that gave its name.
    listed: u64,
    /// Granted borrowing reads by where the bytes lie: the store, the factory part, or nowhere, there being none.
    borrowed: [u64; 3],
    /// Prompts no longer open.
    closed: u64,
}

impl Prompts {
    /// Counts an action on a sound store by what it met and by what came of it.
    pub fn count(&mut self, [before, after]: [&Tables; 2], action: &Action, outcome: &Outcome) {
        let answer = &outcome.answer;
        if answer.refusal == refusals::UNSOUND {
            return;
        }
        if meets_rom(before, action) {
            self.met.count(action.row(), answer.refusal);
        }
        let name = &answer.name[..answer.name_length as usize];
        self.listed += u64::from(name == rom::NAME);
        self.closed += (open_prompts(before)).saturating_sub(open_prompts(after));
        if matches!(action, Action::Borrow(_)) && answer.is_granted() {
            let place = outcome.lent.map_or(2, |(in_rom, _)| usize::from(in_rom));
            self.borrowed[place] += 1;
        }
    }

    pub fn print(&self) {
        println!("\nof these to /rom, a prompt or a descriptor of one");
        self.met.print();
        let [store, part, nothing] = self.borrowed;
        let counts = [
            (self.listed, "\"rom\" listed"),
            (self.closed, "open files on prompts closed"),
            (store, "bytes borrowed from the store"),
            (part, "bytes borrowed from the factory part"),
            (nothing, "borrowing reads of no bytes"),
        ];
        for (count, name) in counts {
            println!("{count:>7}  {name}");
        }
    }
}

fn meets_rom(tables: &Tables, action: &Action) -> bool {
    match action {
        Action::Borrow(borrow) => holds_prompt(tables, borrow.process, Some(borrow.descriptor)),
        Action::Call(call) => match call.call {
            FORK | EXIT => holds_prompt(tables, call.process, None),
            CLOSE..=DUPLICATE => holds_prompt(tables, call.process, Some(call.descriptor)),
            LINK | RENAME => leads_to_rom(tables, call) || last_in_rom(tables, &call.data),
            _ => leads_to_rom(tables, call),
        },
    }
}

/// Whether a process has a prompt open, by one descriptor or by any.
fn holds_prompt(tables: &Tables, process: u8, descriptor: Option<u8>) -> bool {
    let process = usize::from(process);
    let asked = |&number: &usize| descriptor.is_none_or(|asked| usize::from(asked) == number);
    process < PROCESSES
        && (0..DESCRIPTORS).filter(asked).any(|number| {
            let word = tables.descriptors(process)[number] as usize;
            word > 0 && is_prompt(tables, word - 1)
        })
}

fn is_prompt(tables: &Tables, open_file: usize) -> bool {
    !rom::is_stored(tables.open_file(open_file)[OPEN_SLOT] as usize)
}

fn open_prompts(tables: &Tables) -> u64 {
    let open = (0..OPEN_FILES).filter(|&open_file| is_prompt(tables, open_file));
    open.count() as u64
}

/// Whether what the call asks about is /rom or in it.
fn leads_to_rom(tables: &Tables, call: &Call) -> bool {
    match call.followed() {
        None => false,
        Some(whole) if whole == call.path => lies_in_rom(tables, whole),
        Some(_) => last_in_rom(tables, &call.path),
    }
}

/// The same of a path of which the last name is not followed.
fn last_in_rom(tables: &Tables, path: &[u8]) -> bool {
    let Some(slash) = path.iter().rposition(|&byte| byte == b'/') else {
        return false;
    };
    let (parent, name) = (&path[..slash], &path[slash + 1..]);
    let to_root = matches!(
        tree::way(tables, parent, FOLLOWS),
        Ok(Way { slot: ROOT, .. })
    );
    lies_in_rom(tables, parent) || (to_root && name == rom::NAME)
}

fn lies_in_rom(tables: &Tables, path: &[u8]) -> bool {
    tree::way(tables, path, FOLLOWS).is_ok_and(|way| way.slot <= ROM && !rom::is_stored(way.slot))
}
