//! What the command line asks for.

#[cfg(test)]
mod tests;

use crate::calls::Asked;
use crate::given::{unexpected, unknown_option, Given, Known};
use crate::lock::Wait;
use crate::text;
use std::ffi::OsString;
use std::path::PathBuf;
use std::time::Duration;

#[derive(Debug, PartialEq, Eq)]
pub enum Command {
    New {
        store: PathBuf,
        contents: Contents,
    },
    Describe {
        store: Store,
        form: Form,
    },
    Replay {
        store: Store,
        script: Input,
        /// How many calls to make at most; no limit if there is none.
        calls: Option<u64>,
        /// Whether each answer is printed in words too.
        is_explained: bool,
    },
    Call {
        store: Store,
        asked: Asked,
        /// Whether the bytes of a read are printed as hex digits.
        is_hex: bool,
    },
    Show {
        store: Store,
        form: Form,
    },
    Cat {
        store: Store,
        /// A path in the store.
        file: OsString,
    },
    Check {
        store: Store,
        form: Form,
    },
    Convert {
        old: Store,
        new: PathBuf,
    },
    /// The page of a command, or what there is if it names none.
    Help(String),
    Version,
}

/// A store's file, how long to wait for its lock, and the file of the factory part beside it.
#[derive(Debug, PartialEq, Eq)]
pub struct Store {
    pub path: PathBuf,
    pub wait: Wait,
    pub rom: Option<PathBuf>,
}

/// Whom what is printed is for.
#[derive(Clone, Copy, Debug, PartialEq, Eq)]
pub enum Form {
    /// People.
    Text,
    /// Programs.
    Json,
}

/// What a new store has in it.
#[derive(Debug, PartialEq, Eq)]
pub enum Contents {
    TestConsole,
    Empty,
    Description(Input),
}

#[derive(Debug, PartialEq, Eq)]
pub enum Input {
    File(PathBuf),
    Standard,
}

/// The command, or what is wrong with the arguments.
pub fn parse(arguments: &[OsString]) -> Result<Command, String> {
    let (first, rest) = arguments.split_first().ok_or("no command is given")?;
    let name = text::printable(first);
    let mut options = arguments.iter().take_while(|&word| word != "--");
    if options.any(|word| word == "--help" || word == "-h") {
        return Ok(Command::Help(name));
    }
    match (name.as_str(), rest) {
        ("--version" | "-V", []) => Ok(Command::Version),
        ("--version" | "-V", [more, ..]) => Err(unexpected(more)),
        ("new", _) => parse_new(rest),
        ("describe", _) => {
            printed(rest, &[JSON, WAIT]).map(|(store, form)| Command::Describe { store, form })
        }
        ("show", _) => {
            printed(rest, &[JSON, ROM, WAIT]).map(|(store, form)| Command::Show { store, form })
        }
        ("check", _) => {
            printed(rest, &[JSON, ROM, WAIT]).map(|(store, form)| Command::Check { store, form })
        }
        ("replay", _) => parse_replay(rest),
        ("call", _) => parse_call(rest),
        ("cat", _) => parse_cat(rest),
        ("convert", _) => parse_convert(rest),
        _ if name.starts_with('-') => Err(unknown_option(first)),
        _ => Err(format!("unknown command: {name}")),
    }
}

const JSON: Known = ("--json", None);
const ROM: Known = ("--rom", Some("a FILE"));
const WAIT: Known = ("--wait", Some("SECONDS"));

/// What options say of a store.
struct Beside {
    wait: Wait,
    rom: Option<PathBuf>,
}

impl Beside {
    fn take(given: &mut Given) -> Result<Beside, String> {
        let seconds = take_number(given, WAIT.0)?;
        let rom = given.take(ROM.0).map(|word| file(ROM.0, word));
        Ok(Beside {
            wait: seconds.map(Duration::from_secs),
            rom: rom.transpose()?,
        })
    }

    fn store(self, what: &str, word: OsString) -> Result<Store, String> {
        Ok(Store {
            path: file(what, word)?,
            wait: self.wait,
            rom: self.rom,
        })
    }
}

/// The store that a command prints something of, and in what form.
fn printed(rest: &[OsString], known: &[Known]) -> Result<(Store, Form), String> {
    let mut given = Given::sort(rest, known)?;
    let beside = Beside::take(&mut given)?;
    let form = match given.take(JSON.0) {
        Some(_) => Form::Json,
        None => Form::Text,
    };
    let [store] = given.operands(["STORE"])?;
    Ok((beside.store("STORE", store)?, form))
}

fn parse_new(rest: &[OsString]) -> Result<Command, String> {
    const KNOWN: [Known; 2] = [("--from", Some("a DESCRIPTION")), ("--empty", None)];
    let mut given = Given::sort(rest, &KNOWN)?;
    let contents = match (given.take("--from"), given.take("--empty")) {
        (None, None) => Contents::TestConsole,
        (None, Some(_)) => Contents::Empty,
        (Some(description), None) => Contents::Description(input("DESCRIPTION", description)?),
        (Some(_), Some(_)) => return Err("--from and --empty do not go together".into()),
    };
    let [store] = given.operands(["STORE"])?;
    let store = file("STORE", store)?;
    Ok(Command::New { store, contents })
}

fn parse_replay(rest: &[OsString]) -> Result<Command, String> {
    const CALLS: Known = ("--calls", Some("a number"));
    let mut given = Given::sort(rest, &[CALLS, ("--explain", None), ROM, WAIT])?;
    let beside = Beside::take(&mut given)?;
    let is_explained = given.take("--explain").is_some();
    let calls = take_number(&mut given, CALLS.0)?;
    let [store, script] = given.operands(["STORE", "SCRIPT"])?;
    Ok(Command::Replay {
        store: beside.store("STORE", store)?,
        script: input("SCRIPT", script)?,
        calls,
        is_explained,
    })
}

fn parse_call(rest: &[OsString]) -> Result<Command, String> {
    let mut given = Given::sort(rest, &[("--hex", None), ROM, WAIT])?;
    let beside = Beside::take(&mut given)?;
    let is_hex = given.take("--hex").is_some();
    match &given.all_operands()[..] {
        [] => Err("no STORE is given".into()),
        [_] => Err("no PROCESS is given".into()),
        [_, _] => Err("no CALL is given".into()),
        [store, process, name, operands @ ..] => Ok(Command::Call {
            store: beside.store("STORE", store.clone())?,
            asked: Asked::parse(process, name, operands)?,
            is_hex,
        }),
    }
}

fn parse_cat(rest: &[OsString]) -> Result<Command, String> {
    let mut given = Given::sort(rest, &[ROM, WAIT])?;
    let beside = Beside::take(&mut given)?;
    let [store, inner] = given.operands(["STORE", "PATH"])?;
    Ok(Command::Cat {
        store: beside.store("STORE", store)?,
        file: inner,
    })
}

fn parse_convert(rest: &[OsString]) -> Result<Command, String> {
    let mut given = Given::sort(rest, &[WAIT])?;
    let beside = Beside::take(&mut given)?;
    let [old, new] = given.operands(["OLD", "NEW"])?;
    Ok(Command::Convert {
        old: beside.store("OLD", old)?,
        new: file("NEW", new)?,
    })
}

/// Takes an option's value as a whole number, if it is given.
fn take_number(given: &mut Given, name: &str) -> Result<Option<u64>, String> {
    let Some(word) = given.take(name) else {
        return Ok(None);
    };
    let word = text::printable(&word);
    let is_number = !word.is_empty() && word.bytes().all(|byte| byte.is_ascii_digit());
    match word.parse() {
        Ok(number) if is_number => Ok(Some(number)),
        _ if is_number => Err(format!("{name}: {word} is too large")),
        _ => Err(format!("{name}: not a whole number: {word}")),
    }
}

fn input(what: &str, word: OsString) -> Result<Input, String> {
    match word.is_empty() {
        true => Err(format!("{what} is empty")),
        false if word == "-" => Ok(Input::Standard),
        false => Ok(Input::File(word.into())),
    }
}

/// A store is a file, and none comes from or goes to a standard stream; nor does a factory part.
fn file(what: &str, word: OsString) -> Result<PathBuf, String> {
    match input(what, word)? {
        Input::Standard => Err(format!("{what} may not be -; a file of that name is ./-")),
        Input::File(path) => Ok(path),
    }
}
