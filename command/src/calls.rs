//! The calls by their names, with their parts in words.

use crate::bits;
use crate::ranges::LAST_BITS;
use crate::text;
use mritvelja::calls::{self, Part};
use mritvelja::layout::BLOCK;
use mritvelja::modes;
use std::ffi::{OsStr, OsString};
use std::os::unix::ffi::OsStrExt;

use Part::*;

const NAMES: [(&str, u8); 20] = [
    ("open", calls::OPEN),
    ("create", calls::CREATE),
    ("make-directory", calls::MAKE_DIRECTORY),
    ("unlink", calls::UNLINK),
    ("remove-directory", calls::REMOVE_DIRECTORY),
    ("link", calls::LINK),
    ("list", calls::LIST),
    ("change-bits", calls::CHANGE_BITS),
    ("stat", calls::STAT),
    ("close", calls::CLOSE),
    ("read", calls::READ),
    ("write", calls::WRITE),
    ("seek", calls::SEEK),
    ("duplicate", calls::DUPLICATE),
    ("fork", calls::FORK),
    ("exit", calls::EXIT),
    ("execute", calls::EXECUTE),
    ("symlink", calls::SYMLINK),
    ("readlink", calls::READLINK),
    ("rename", calls::RENAME),
];

/// A call's name; nothing if there is no such call.
pub fn name(call: u16) -> Option<&'static str> {
    let known = NAMES.iter().find(|&&(_, number)| u16::from(number) == call);
    known.map(|&(name, _)| name)
}

/// A call as a script may have it: its numbers need not be of any process or call.
#[derive(Clone, Debug, Default, PartialEq, Eq)]
pub struct Asked {
    pub process: u16,
    pub call: u16,
    pub descriptor: u16,
    /// The mode, bits, index, size or position.
    pub number: u16,
    pub path: Vec<u8>,
    pub data: Vec<u8>,
}

impl Asked {
    /// The call of a name with its operands, as many as it has parts; a read or a readlink without a size is of
    /// all that there is.
    pub fn parse(process: &OsStr, name: &OsStr, operands: &[OsString]) -> Result<Asked, String> {
        let &(name, call) = NAMES
            .iter()
            .find(|(known, _)| name == *known)
            .ok_or_else(|| format!("unknown call: {}", text::printable(name)))?;
        let parts = calls::parts(call.into()).expect("a call with a name is known");
        if let Some(more) = operands.get(parts.len()) {
            let more = text::printable(more);
            return Err(format!("one argument too many for {name}: {more}"));
        }
        let mut asked = Asked {
            process: number("PROCESS", process, u8::MAX.into())?,
            call: call.into(),
            ..Asked::default()
        };
        for (at, &part) in parts.iter().enumerate() {
            match operands.get(at) {
                Some(operand) => asked.set(part, operand)?,
                None if part == Buffer => asked.number = BLOCK as u16,
                None => return Err(format!("{name} needs {}", what(part))),
            }
        }
        Ok(asked)
    }

    fn set(&mut self, part: Part, word: &OsStr) -> Result<(), String> {
        let not = || format!("{} is {}", what(part), text::printable(word));
        match part {
            Path => self.path = word.as_bytes().to_vec(),
            NewPath | Target | Data => self.data = word.as_bytes().to_vec(),
            Descriptor => self.descriptor = number(what(part), word, u8::MAX.into())?,
            Index | Buffer | Position => self.number = number(what(part), word, u16::MAX)?,
            Mode => {
                self.number = parse_mode(word.as_bytes()).ok_or_else(|| {
                    not() + ", not read, write, both or append, and perhaps ,truncate"
                })?
            }
            Bits => {
                let bits = bits::parse(word.as_bytes());
                let bits = bits.ok_or_else(|| format!("{}, not {}", not(), bits::FORM))?;
                self.number = u16::try_from(bits).expect("bits are at most 511");
            }
        }
        Ok(())
    }

    /// The call in the words that [`Asked::parse`] takes.
    pub fn words(&self) -> String {
        let (Some(name), Some(parts)) = (name(self.call), calls::parts(self.call)) else {
            return format!("unknown call {}", self.call);
        };
        let parts = parts.iter().map(|&part| self.word(part));
        [name.to_string()]
            .into_iter()
            .chain(parts)
            .collect::<Vec<_>>()
            .join(" ")
    }

    fn word(&self, part: Part) -> String {
        match part {
            Path => text::readable(&self.path),
            NewPath | Target => text::readable(&self.data),
            Data => text::quote(&self.data),
            Descriptor => self.descriptor.to_string(),
            Index | Buffer | Position => self.number.to_string(),
            Mode => mode_words(self.number).unwrap_or_else(|| self.number.to_string()),
            Bits if u32::from(self.number) > LAST_BITS => self.number.to_string(),
            Bits => bits::word(self.number.into()),
        }
    }
}

fn what(part: Part) -> &'static str {
    match part {
        Path => "a PATH",
        NewPath => "a NEW PATH",
        Target => "a TARGET",
        Mode => "a MODE",
        Bits => "BITS",
        Index => "an INDEX",
        Descriptor => "a DESCRIPTOR",
        Buffer => "a SIZE",
        Position => "a POSITION",
        Data => "DATA",
    }
}

fn number(what: &str, word: &OsStr, last: u16) -> Result<u16, String> {
    let word = text::printable(word);
    let is_number = !word.is_empty() && word.bytes().all(|byte| byte.is_ascii_digit());
    let number = word
        .parse()
        .ok()
        .filter(|&number| is_number && number <= last);
    number.ok_or_else(|| format!("{what} is {word}, not a number from 0 to {last}"))
}

const TRUNCATE: &str = ",truncate";

fn parse_mode(word: &[u8]) -> Option<u16> {
    match word.strip_suffix(TRUNCATE.as_bytes()) {
        Some(word) => text::parse_mode(word).map(|mode| mode | modes::TRUNCATE),
        None => text::parse_mode(word),
    }
}

fn mode_words(mode: u16) -> Option<String> {
    let word = text::mode(u32::from(mode & !modes::TRUNCATE))?;
    let truncate = if mode & modes::TRUNCATE != 0 {
        TRUNCATE
    } else {
        ""
    };
    Some(format!("{word}{truncate}"))
}
