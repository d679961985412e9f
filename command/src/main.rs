//! The command `mritvelja`: makes, runs, shows, describes, checks and converts store files
//! (`docs/command.md`), over the proved store.

mod answers;
mod arguments;
mod attributes;
mod bits;
mod block;
mod broken;
mod call;
mod calls;
mod cat;
mod check;
mod convert;
mod describe;
mod description;
mod diagnosis;
mod explain;
mod failure;
mod format;
mod former;
mod given;
mod held;
mod help;
mod input;
mod json;
mod lock;
mod memory;
mod new;
mod output;
mod path;
mod pieces;
mod progress;
mod ranges;
mod replay;
mod rom;
mod save;
mod seen;
mod show;
mod store_json;
mod streams;
mod system;
mod temporary;
mod text;

use arguments::Command;
use failure::Failure;
use std::env;
use std::ffi::OsString;
use std::process::ExitCode;

const FAILED: u8 = 1;
const BAD_ARGUMENTS: u8 = 2;

const VERSION: &str = concat!("mritvelja ", env!("CARGO_PKG_VERSION"), "\n");

fn main() -> ExitCode {
    let arguments: Vec<OsString> = env::args_os().skip(1).collect();
    match arguments::parse(&arguments) {
        Ok(command) => carry_out(&command).unwrap_or_else(|failure| {
            output::tell(failure);
            ExitCode::from(FAILED)
        }),
        Err(complaint) => {
            let command = arguments.first().and_then(|first| first.to_str());
            let usage = help::usage(command.unwrap_or_default());
            output::tell(format_args!("{complaint}\n{usage}"));
            ExitCode::from(BAD_ARGUMENTS)
        }
    }
}

fn carry_out(command: &Command) -> Result<ExitCode, Failure> {
    let is_well = match command {
        Command::New { store, contents } => output::tell_warning(new::new(store, contents)?),
        Command::Describe { store, form } => describe::describe(store, *form).map(|()| true)?,
        Command::Replay {
            store,
            script,
            calls,
            is_explained,
        } => output::tell_warning(replay::replay(store, script, *calls, *is_explained)?),
        Command::Call {
            store,
            asked,
            is_hex,
        } => call::call(store, asked, *is_hex)?,
        Command::Show { store, form } => show::show(store, *form).map(|()| true)?,
        Command::Cat { store, file } => cat::cat(store, file).map(|()| true)?,
        Command::Check { store, form } => check::check(store, *form)?,
        Command::Convert { old, new } => output::tell_warning(convert::convert(old, new)?),
        Command::Help(command) => output::print(help::help(command).as_bytes()).map(|()| true)?,
        Command::Version => output::print(VERSION.as_bytes()).map(|()| true)?,
    };
    Ok(match is_well {
        true => ExitCode::SUCCESS,
        false => ExitCode::from(FAILED),
    })
}
