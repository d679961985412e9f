//! The words after a command: options with their values, and operands.

use crate::text;
use std::ffi::{OsStr, OsString};
use std::os::unix::ffi::OsStrExt;

/// An option's name, and what its value is, if it has one.
pub type Known = (&'static str, Option<&'static str>);

pub struct Given {
    options: Vec<(&'static str, OsString)>,
    operands: Vec<OsString>,
}

impl Given {
    /// Sorts the words. A value may follow its option as a word or after `=`; after
    /// `--` there are only operands.
    pub fn sort(words: &[OsString], known: &[Known]) -> Result<Given, String> {
        let (mut options, mut operands) = (Vec::new(), Vec::new());
        let mut words = words.iter();
        while let Some(word) = words.next() {
            if word == "--" {
                operands.extend(words.cloned());
                break;
            }
            if !is_option(word) {
                operands.push(word.clone());
                continue;
            }
            let (name, value) = split_value(word);
            let &(name, takes) = known
                .iter()
                .find(|(known, _)| name == *known)
                .ok_or_else(|| unknown_option(word))?;
            if options.iter().any(|&(earlier, _)| earlier == name) {
                return Err(format!("{name} is given twice"));
            }
            let value = match (takes, value) {
                (None, None) => OsString::new(),
                (None, Some(_)) => return Err(format!("{name} takes no value")),
                (Some(_), Some(value)) => value,
                (Some(what), None) => {
                    let value = words.next().cloned();
                    value.ok_or_else(|| format!("{name} needs {what}"))?
                }
            };
            options.push((name, value));
        }
        Ok(Given { options, operands })
    }

    /// Takes an option's value, if it is given; of one without a value, an empty one.
    pub fn take(&mut self, name: &str) -> Option<OsString> {
        let at = self.options.iter().position(|&(given, _)| given == name)?;
        Some(self.options.swap_remove(at).1)
    }

    /// All operands.
    pub fn all_operands(self) -> Vec<OsString> {
        self.operands
    }

    /// The operands, which must be as many as are named.
    pub fn operands<const N: usize>(self, names: [&str; N]) -> Result<[OsString; N], String> {
        if let Some(more) = self.operands.get(N) {
            return Err(unexpected(more));
        }
        let missing = names.get(self.operands.len());
        let operands = self.operands.try_into();
        operands.map_err(|_| format!("no {} is given", missing.unwrap_or(&"operand")))
    }
}

/// A dash alone is standard input, and no option.
fn is_option(word: &OsStr) -> bool {
    word != "-" && word.as_bytes().starts_with(b"-")
}

/// A word `NAME=VALUE` in its two parts.
fn split_value(word: &OsStr) -> (&OsStr, Option<OsString>) {
    let bytes = word.as_bytes();
    match bytes.iter().position(|&byte| byte == b'=') {
        None => (word, None),
        Some(at) => (
            OsStr::from_bytes(&bytes[..at]),
            Some(OsStr::from_bytes(&bytes[at + 1..]).into()),
        ),
    }
}

pub fn unknown_option(word: &OsStr) -> String {
    format!("unknown option: {}", text::printable(word))
}

pub fn unexpected(word: &OsStr) -> String {
    format!("one argument too many: {}", text::printable(word))
}
