//! From a call as it comes in to its answer.

use crate::access::Caller;
use crate::answer::Answer;
use crate::command::{Command, Request};
use crate::refusal::{Refusal, Refused};
use crate::tables::Store;

pub fn answer(
    mut store: Store,
    request: Request,
    path: &[u8],
    data: &[u8],
    buffer: &mut [u8],
) -> Answer {
    understand(&store, request, path, data)
        .and_then(|(caller, command)| store.run(caller, command, buffer))
        .unwrap_or_else(Answer::from)
}

/// Who calls, and for what.
fn understand<'a>(
    store: &Store,
    request: Request,
    path: &'a [u8],
    data: &'a [u8],
) -> Result<(Caller, Command<'a>), Refused> {
    let caller = store
        .tables()
        .caller(request.process)
        .ok_or(Refusal::NoProcess)?;
    let command = Command::parse(request, path, data).ok_or(Refusal::Malformed)?;
    Ok((caller, command))
}

impl Store<'_> {
    fn run(
        &mut self,
        caller: Caller,
        command: Command,
        buffer: &mut [u8],
    ) -> Result<Answer, Refused> {
        use Command::*;
        match command {
            Open { path, opening } => self.open(caller, &path, opening),
            Make { kind, target, bits } => self.make(caller, kind, &target, bits),
            Unlink { target } => self.unlink(caller, &target),
            RemoveDirectory { target } => self.remove_directory(caller, &target),
            Link { old, new } => self.link(caller, &old, &new),
            List { path, index } => self.list(caller, &path, index),
            ChangeBits { path, bits } => self.change_bits(caller, &path, bits),
            Stat { path } => self.stat(caller, &path),
            Close { descriptor } => self.close(caller, descriptor),
            Read { descriptor } => self.read(caller, descriptor, buffer),
            Write { descriptor, data } => self.write(caller, descriptor, data),
            Seek {
                descriptor,
                position,
            } => self.seek(caller, descriptor, position),
            Duplicate { descriptor } => self.duplicate(caller, descriptor),
            Fork => self.fork(caller),
            Exit => self.exit(caller),
            Execute { path } => self.execute(caller, &path),
            MakeSymlink { target, text } => self.make_symlink(caller, &target, text),
            ReadSymlink { path } => self.read_symlink(caller, &path, buffer),
            Rename { old, new } => self.rename(caller, &old, &new),
        }
    }
}
