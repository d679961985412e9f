//! Bytes, rights and counts as text that a person and a screen reader can read.

use mritvelja::layout::{EXECUTE, READ, WRITE};
use mritvelja::modes;
use std::ffi::OsStr;
use std::fmt::Write;
use std::os::unix::ffi::OsStrExt;

/// Bytes as printable ASCII; every other byte and the backslash as `\xNN`.
pub fn readable(bytes: &[u8]) -> String {
    let mut text = String::with_capacity(bytes.len());
    for &byte in bytes {
        match byte {
            b' '..=b'~' if byte != b'\\' => text.push(char::from(byte)),
            _ => push_hex(&mut text, &[byte]),
        }
    }
    text
}

/// Bytes between quotes, as they stand in a description.
pub fn quote(bytes: &[u8]) -> String {
    format!("\"{}\"", readable(bytes).replace('"', r"\x22"))
}

/// Bytes as pairs of hex digits.
pub fn hex(bytes: &[u8]) -> String {
    bytes.iter().map(|byte| format!("{byte:02x}")).collect()
}

/// A file's name or an argument, in letters of any script; every byte that is not of
/// a printable character, and the backslash, as `\xNN`: a terminal obeys none of it.
pub fn printable(name: &OsStr) -> String {
    let mut text = String::with_capacity(name.len());
    for chunk in name.as_bytes().utf8_chunks() {
        for character in chunk.valid().chars() {
            match is_printable(character) {
                true => text.push(character),
                false => push_hex(&mut text, character.encode_utf8(&mut [0; 4]).as_bytes()),
            }
        }
        push_hex(&mut text, chunk.invalid());
    }
    text
}

/// A file's name as one word of a command in the shell.
pub fn quoted(name: &OsStr) -> String {
    let is_plain = |byte: u8| byte.is_ascii_alphanumeric() || b"/._-+,:@%=".contains(&byte);
    let text = printable(name);
    // Nothing that begins with a dash is taken for a file.
    let dot = if text.starts_with('-') { "./" } else { "" };
    if text.bytes().all(is_plain) {
        format!("{dot}{text}")
    } else if text.as_bytes() == name.as_bytes() {
        format!("'{dot}{}'", text.replace('\'', r"'\''"))
    } else {
        format!("$'{dot}{}'", text.replace('\'', r"\'"))
    }
}

fn is_printable(character: char) -> bool {
    // A letter before it, since a mark that goes with a letter is printable there.
    let is_escaped = || String::from_iter(['x', character]).escape_debug().count() > 2;
    matches!(character, '\'' | '"') || !is_escaped()
}

fn push_hex(text: &mut String, bytes: &[u8]) {
    for byte in bytes {
        write!(text, "\\x{byte:02x}").expect("a string takes all text");
    }
}

const RIGHTS: [(&str, u32); 3] = [("read", READ), ("write", WRITE), ("execute", EXECUTE)];
const NO_RIGHTS: &str = "none";

/// The word of each right, of rights from 0 to 7.
pub fn right_words(rights: u32) -> Vec<&'static str> {
    let held = RIGHTS.iter().filter(|(_, right)| rights & right != 0);
    held.map(|&(word, _)| word).collect()
}

/// Rights in words, from 0 to 7, with something between them.
pub fn rights(rights: u32, between: &str) -> String {
    let words = right_words(rights);
    match words.is_empty() {
        true => NO_RIGHTS.into(),
        false => words.join(between),
    }
}

/// The rights that words with commas between them name, each once.
pub fn parse_rights(words: &[u8]) -> Option<u32> {
    if words == NO_RIGHTS.as_bytes() {
        return Some(0);
    }
    words.split(|&byte| byte == b',').try_fold(0, |held, word| {
        let &(_, right) = RIGHTS.iter().find(|(name, _)| name.as_bytes() == word)?;
        (held & right == 0).then_some(held | right)
    })
}

const MODES: [(&str, u16); 4] = [
    ("read", modes::READ),
    ("write", modes::WRITE),
    ("both", modes::BOTH),
    ("append", modes::APPEND),
];

/// A mode in a word, from 1 to 4.
pub fn mode(mode: u32) -> Option<&'static str> {
    let named = MODES.iter().find(|&&(_, number)| u32::from(number) == mode);
    named.map(|&(word, _)| word)
}

/// The mode that a word names.
pub fn parse_mode(word: &[u8]) -> Option<u16> {
    let named = MODES.iter().find(|(name, _)| name.as_bytes() == word);
    named.map(|&(_, number)| number)
}

/// A number and what it counts.
pub fn count(number: u64, one: &str, many: &str) -> String {
    match number {
        1 => format!("1 {one}"),
        _ => format!("{number} {many}"),
    }
}

#[cfg(test)]
mod tests {
    use super::*;

    #[test]
    fn every_byte_of_a_name_can_be_read() {
        assert_eq!(readable(b"now 2.40~"), "now 2.40~");
        assert_eq!(
            readable(b"a\\b\n\x7f\xff\x1b"),
            "a\\x5cb\\x0a\\x7f\\xff\\x1b"
        );
    }

    #[test]
    fn every_name_can_be_printed_and_quoted() {
        for (name, shown, word) in [
            (&b"bus.store"[..], "bus.store", "bus.store"),
            (b"-x", "-x", "./-x"),
            (b"it's", "it's", r"'it'\''s'"),
            (
                "Rūta e\u{301}".as_bytes(),
                "Rūta e\u{301}",
                "'Rūta e\u{301}'",
            ),
            (b"a\nb\\'", r"a\x0ab\x5c'", r"$'a\x0ab\x5c\''"),
            (b"-\xff\x1b", r"-\xff\x1b", r"$'./-\xff\x1b'"),
        ] {
            let name = OsStr::from_bytes(name);
            assert_eq!(printable(name), shown);
            assert_eq!(quoted(name), word);
        }
    }

    #[test]
    fn rights_are_words() {
        assert_eq!(rights(0, " "), "none");
        assert_eq!(rights(5, " "), "read execute");
        for all in 0..=7 {
            assert_eq!(parse_rights(rights(all, ",").as_bytes()), Some(all));
        }
        for wrong in [
            "",
            "read,",
            "read,read",
            "none,read",
            "search",
            "read write",
        ] {
            assert_eq!(parse_rights(wrong.as_bytes()), None, "{wrong}");
        }
    }
}
