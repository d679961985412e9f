//! A block of a script (`docs/scripts.md`): the call that it asks for, or the line at which it breaks and how.

use crate::calls::{self, Asked};
use mritvelja::calls::{uses, Field};
use mritvelja::layout::{BLOCK, PATH};

const KEYS: [&str; 6] = ["proc=", "call=", "fd=", "arg=", "path=", "data="];

/// The block's line, from 0, at which it breaks, and how.
pub type Break = (usize, String);

/// A call as a block has it, its data still in hex. Its numbers need not be of any process or call.
#[derive(Debug, PartialEq, Eq)]
pub struct Block<'a> {
    pub process: u16,
    pub call: u16,
    descriptor: u16,
    number: u16,
    path: &'a [u8],
    data: &'a [u8],
    /// How many bytes the block has.
    pub size: usize,
}

impl Block<'_> {
    /// The call in words. Of a path or data that are longer than any that is granted, only how long they are.
    pub fn words(&self) -> String {
        let (path_size, data_size) = (self.path.len(), self.data.len() / 2);
        if path_size > PATH || data_size > BLOCK {
            let name = calls::name(self.call).unwrap_or("call");
            return format!("{name} of {} bytes", path_size + data_size);
        }
        let asked = Asked {
            process: self.process,
            call: self.call,
            descriptor: self.descriptor,
            number: self.number,
            path: self.path.to_vec(),
            data: from_hex(self.data).unwrap_or_default(),
        };
        asked.words()
    }
}

/// The first block of a script.
pub fn parse(script: &[u8]) -> Result<Block<'_>, Break> {
    let mut rest = script;
    let mut numbers = [0; 4];
    let mut texts = [&b""[..]; 2];
    for (index, key) in KEYS.into_iter().enumerate() {
        let (value, after) = line(rest, key).map_err(|why| (index, why))?;
        match index < 4 {
            true => numbers[index] = number(value).map_err(|why| (index, why.into()))?,
            false => texts[index - 4] = value,
        }
        rest = after;
    }
    let ([process, call, descriptor, number], [path, data]) = (numbers, texts);
    if !is_hex(data) {
        let why = "the data is not pairs of the digits 0 to 9 and a to f";
        return Err((5, why.into()));
    }
    let block = Block {
        process,
        call,
        descriptor,
        number,
        path,
        data,
        size: script.len() - rest.len(),
    };
    match unused_but_given(&block) {
        None => Ok(block),
        Some(found) => Err(found),
    }
}

/// The value of the first line, which must have a key, and what comes after the line.
fn line<'a>(script: &'a [u8], key: &str) -> Result<(&'a [u8], &'a [u8]), String> {
    let end = script.iter().position(|&byte| byte == b'\n');
    let end = end.ok_or_else(|| format!("a line {key} that ends with byte 10 is missing"))?;
    match script[..end].strip_prefix(key.as_bytes()) {
        Some(value) => Ok((value, &script[end + 1..])),
        None => Err(format!("it does not begin with {key}")),
    }
}

fn number(text: &[u8]) -> Result<u16, &'static str> {
    match text {
        [] => Err("the number is missing"),
        _ if !text.iter().all(u8::is_ascii_digit) => Err("the number is not decimal"),
        [b'0', _, ..] => Err("the number has a leading zero"),
        _ => std::str::from_utf8(text)
            .ok()
            .and_then(|digits| digits.parse().ok())
            .ok_or("the number is over 65535"),
    }
}

fn is_hex(text: &[u8]) -> bool {
    let is_digit = |byte| matches!(byte, b'0'..=b'9' | b'a'..=b'f');
    text.len().is_multiple_of(2) && text.iter().copied().all(is_digit)
}

/// The bytes that pairs of the digits 0 to 9 and a to f stand for.
pub fn from_hex(text: &[u8]) -> Option<Vec<u8>> {
    let value = |digit: u8| char::from(digit).to_digit(16);
    let (pairs, _) = text.as_chunks::<2>();
    let bytes = pairs
        .iter()
        .map(|&[high, low]| u8::try_from(16 * value(high)? + value(low)?).ok());
    bytes.collect::<Option<Vec<u8>>>().filter(|_| is_hex(text))
}

/// The first part that stands in the block though its call does not use it.
fn unused_but_given(block: &Block) -> Option<Break> {
    let call = block.call;
    let given = [
        (Field::Descriptor, block.descriptor != 0, "0"),
        (Field::Number, block.number != 0, "0"),
        (Field::Path, !block.path.is_empty(), "empty"),
        (Field::Data, !block.data.is_empty(), "empty"),
    ];
    let at = given
        .iter()
        .position(|&(field, is_given, _)| is_given && !uses(call, field))?;
    let (key, must_be) = (KEYS[at + 2], given[at].2);
    Some((
        at + 2,
        format!("call {call} does not use {key}, which must be {must_be}"),
    ))
}

#[cfg(test)]
mod tests {
    use super::*;
    use mritvelja::{reasons, test_console};
    use std::ffi::OsString;

    fn block(call: u32, descriptor: &str, number: &str, path: &str, data: &str) -> String {
        format!("proc=2\ncall={call}\nfd={descriptor}\narg={number}\npath={path}\ndata={data}\n")
    }

    fn is_broken(block: &str) -> bool {
        let mut output = [0; 2048];
        let run = mritvelja::replay(&mut test_console(), block.as_bytes(), 1, &mut output);
        run.reason == reasons::BROKEN
    }

    fn assert_breaks(block: &str, line: usize, why: &str) {
        assert!(is_broken(block), "{block}");
        let (at, said) = parse(block.as_bytes()).unwrap_err();
        assert_eq!(at, line, "{block}");
        assert!(said.contains(why), "{said}");
    }

    #[test]
    fn a_broken_block_breaks_at_a_line() {
        for (block, line, why) in [
            (String::new() + "proc=2", 0, "ends with byte 10 is missing"),
            ("proc=2\ncall=1\n".into(), 2, "line fd= that ends"),
            ("call=1\n".into(), 0, "does not begin with proc="),
            (block(1, "", "1", "/", ""), 2, "the number is missing"),
            (block(1, "0", "01", "/", ""), 3, "leading zero"),
            (block(1, "0", "65536", "/", ""), 3, "over 65535"),
            (block(1, "0", "99999999999", "/", ""), 3, "over 65535"),
            (block(1, "0", "+1", "/", ""), 3, "not decimal"),
            (block(12, "0", "0", "", "4"), 5, "pairs"),
            (block(12, "0", "0", "", "4A"), 5, "pairs"),
            (block(16, "1", "0", "", ""), 2, "call 16 does not use fd="),
            (block(4, "0", "1", "/x", ""), 3, "does not use arg="),
            (
                block(10, "0", "0", "/", ""),
                4,
                "does not use path=, which must be empty",
            ),
            (block(9, "0", "0", "/", "00"), 5, "does not use data="),
        ] {
            assert_breaks(&block, line, why);
        }
    }

    #[test]
    fn a_broken_block_of_two_paths_or_a_link_breaks_at_a_line() {
        for (block, line, why) in [
            (block(18, "1", "0", "/a", "2f"), 2, "18 does not use fd="),
            (block(18, "0", "1", "/a", "2f"), 3, "18 does not use arg="),
            (block(19, "1", "9", "/a", ""), 2, "19 does not use fd="),
            (block(19, "0", "9", "/a", "2f"), 5, "19 does not use data="),
            (block(20, "1", "0", "/a", "2f62"), 2, "20 does not use fd="),
            (block(20, "0", "1", "/a", "2f62"), 3, "20 does not use arg="),
        ] {
            assert_breaks(&block, line, why);
        }
    }

    #[test]
    fn each_call_uses_what_the_store_says() {
        for call in 0..=21 {
            for part in 0..4 {
                let mut texts = ["0", "0", "", ""];
                texts[part] = ["7", "1", "/", "2f"][part];
                let [descriptor, number, path, data] = texts;
                let block = block(call, descriptor, number, path, data);
                assert_eq!(
                    is_broken(&block),
                    parse(block.as_bytes()).is_err(),
                    "{block}"
                );
            }
        }
    }

    #[test]
    fn a_block_is_the_call_that_its_words_are() {
        let open = block(1, "0", "10", "/a", "");
        let followed = open.clone() + "x";
        let parsed = parse(followed.as_bytes()).unwrap();
        assert_eq!(parsed.size, open.len());
        assert_eq!(parsed.words(), "open /a write,truncate");
        let words = ["/a", "write,truncate"].map(OsString::from);
        let asked = Asked::parse("2".as_ref(), "open".as_ref(), &words).unwrap();
        assert_eq!(asked.words(), parsed.words());
        for (block, words) in [
            (block(18, "0", "0", "/a", "2f1b"), "symlink /a /\\x1b"),
            (block(18, "0", "0", "/a", ""), "symlink /a "),
            (block(19, "0", "512", "/a", ""), "readlink /a 512"),
            (block(20, "0", "0", "/a", "2f62"), "rename /a /b"),
            (block(20, "0", "0", "/a", ""), "rename /a "),
        ] {
            assert_eq!(parse(block.as_bytes()).unwrap().words(), words);
        }
    }

    #[test]
    fn what_no_call_is_granted_is_not_copied() {
        let long = block(12, "0", "0", "", &"ab".repeat(513));
        assert_eq!(
            parse(long.as_bytes()).unwrap().words(),
            "write of 513 bytes"
        );
        let deep = block(1, "0", "1", &"/a".repeat(33), "");
        assert_eq!(parse(deep.as_bytes()).unwrap().words(), "open of 66 bytes");
    }
}
