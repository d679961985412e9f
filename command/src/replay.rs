//! `replay`: runs a script in memory; then saves the store, then prints the answers.

use crate::answers;
use crate::arguments::{Input, Store};
use crate::broken;
use crate::check;
use crate::explain;
use crate::failure::Failure;
use crate::held::{Held, Warning};
use crate::input;
use crate::memory;
use crate::output;
use crate::pieces::{self, Lost, Reason, Replayed};
use crate::rom;
use crate::streams;
use crate::text;

const NO_MEMORY: &str = "the answers do not fit the memory; nothing was changed";

/// What was saved is answered, also where the name of the store may be lost.
pub fn replay(
    store: &Store,
    script: &Input,
    calls: Option<u64>,
    is_explained: bool,
) -> Result<Warning, Failure> {
    // Asked first: no call is made whose answer nobody can get.
    streams::require_output()?;
    let rom = rom::read(store.rom.as_deref())?;
    let bytes = input::read(script)?;
    let held = Held::new(store)?;
    let before = held.load(rom)?;
    check::require_sound(&store.path, &before)?;

    let mut after = before.clone();
    let run = pieces::run(&mut after, &bytes, calls).map_err(|lost| failure(script, lost))?;
    if run.reason == Reason::Broken {
        let why = broken::message(&bytes, run.next, run.calls + 1);
        return Err(input::refused(script, why));
    }
    let explained = is_explained.then(|| memory::grow(|| explain::explain(&bytes, &run.answers)));
    let explained = explained.transpose();
    let explained = explained.map_err(|lost| failure(script, lost))?;
    let is_changed = after != before;
    let warning = match is_changed {
        true => held.save(&after)?,
        false => None,
    };
    let printed = output::print(explained.as_ref().unwrap_or(&run.answers));
    tell_summary(&run, is_changed);
    if let Err(failure) = printed {
        output::tell_warning(warning);
        return Err(failure);
    }
    Ok(warning)
}

fn failure(script: &Input, lost: Lost) -> Failure {
    match lost {
        Lost::Memory => input::refused(script, NO_MEMORY),
        Lost::Unexpected(why) => Failure::new("internal error", why),
    }
}

fn tell_summary(run: &Replayed, is_changed: bool) {
    for (refusal, count) in explain::refused(&run.answers) {
        let calls = text::count(count, "call", "calls");
        output::tell(format_args!(
            "{calls} refused with {}",
            answers::refusal(refusal)
        ));
    }
    output::tell(summary(run, is_changed));
}

fn summary(run: &Replayed, is_changed: bool) -> String {
    let answered = text::count(run.calls, "call answered", "calls answered");
    let store = match is_changed {
        true => "the store is saved",
        false => "the store did not change",
    };
    match run.reason {
        Reason::Allowance => format!(
            "{answered}, {store}; the allowance is spent, the next block begins at byte {}",
            run.next
        ),
        _ => format!("{answered}, {store}; that is the whole script"),
    }
}
