//! A plain file store over flat lent tables: the second program, written from
//! the rules alone so that the two can be compared.
//!
//! [`call`] answers one call, [`borrow_read`] is a read that hands back the
//! bytes themselves, [`sound`] tells whether tables are sound, [`act`] answers
//! a call without testing soundness first, [`replay()`] runs a script of calls,
//! and [`encode`] and [`decode`] are a call's written form.
//!
//! Beside the tables, ROM is lent: the factory's prompts, any bytes of any
//! length.

mod access;
mod answer;
mod bits;
mod borrow;
mod command;
mod descriptor_calls;
mod directory;
mod name_calls;
mod numbers;
mod parts;
mod path;
mod path_calls;
mod process_calls;
mod records;
mod refusal;
mod replay;
mod rights;
mod rom;
mod script;
mod serve;
mod sound;
mod tables;
mod upkeep;
mod walk;
mod written;

pub use answer::Answer;
pub use borrow::borrow_read;
pub use command::Request;
pub use replay::{replay, Reason, Replayed};
pub use written::{decode, encode, Written};

use refusal::Refusal;
use tables::{Store, Tables};

/// Answers one call on the lent tables.
///
/// Tables of another size, unsound ones and unsound ROM are refused. A refusal
/// changes nothing lent; only a granted read, of a file or of a symbolic link's
/// text, writes to the buffer.
#[allow(clippy::too_many_arguments)] // the lent tables come one by one
pub fn call(
    files: &mut [u32],
    contents: &mut [u8],
    open_files: &mut [u32],
    processes: &mut [u32],
    policy: &[u8],
    rom: &[u8],
    request: Request,
    path: &[u8],
    data: &[u8],
    buffer: &mut [u8],
) -> Answer {
    match Store::lend(files, contents, open_files, processes, policy, rom) {
        Some(store) if sound::is_sound(&store.tables()) => {
            serve::answer(store, request, path, data, buffer)
        }
        _ => Answer::from(Refusal::Unsound),
    }
}

/// As [`call`], without the soundness test: for sound tables only. ROM that is
/// not sound has fewer prompts, or longer ones.
#[allow(clippy::too_many_arguments)] // the lent tables come one by one
pub fn act(
    files: &mut [u32],
    contents: &mut [u8],
    open_files: &mut [u32],
    processes: &mut [u32],
    policy: &[u8],
    rom: &[u8],
    request: Request,
    path: &[u8],
    data: &[u8],
    buffer: &mut [u8],
) -> Answer {
    match Store::lend(files, contents, open_files, processes, policy, rom) {
        Some(store) => serve::answer(store, request, path, data, buffer),
        None => Answer::from(Refusal::Unsound),
    }
}

/// Whether the tables have the right sizes and store, policy and ROM are sound.
pub fn sound(
    files: &[u32],
    contents: &[u8],
    open_files: &[u32],
    processes: &[u32],
    policy: &[u8],
    rom: &[u8],
) -> bool {
    Tables::lend(files, contents, open_files, processes, policy, rom)
        .is_some_and(|tables| sound::is_sound(&tables))
}
