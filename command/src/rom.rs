//! The factory part, which lies beside a store: its prompts, and the file that `--rom` names.

use crate::failure::Failure;
use crate::text;
use mritvelja::layout::{BLOCK, PROMPTS};
use std::fs::File;
use std::io::Read;
use std::path::Path;

/// The name of the prompts' directory in the root, which no store may have there.
pub const NAME: &[u8] = b"rom";

/// The bytes of the length that stands before each prompt.
const LENGTH: usize = 2;
/// The bytes of the longest part.
const LONGEST: usize = PROMPTS * (LENGTH + BLOCK);

/// Reads a part, and refuses one that is not sound. Without a file it is empty.
pub fn read(file: Option<&Path>) -> Result<Vec<u8>, Failure> {
    let Some(path) = file else {
        return Ok(Vec::new());
    };
    let mut part = Vec::new();
    // One byte more than a part has shows that there is more.
    File::open(path)
        .and_then(|file| file.take(LONGEST as u64 + 1).read_to_end(&mut part))
        .map_err(|error| Failure::tried(path, "cannot be read", &error))?;
    let wrong = prompts(&part).err();
    match wrong {
        None => Ok(part),
        Some(why) => Err(Failure::of(path, format!("not a factory part: {why}"))),
    }
}

/// The prompts of a part in turn, or what is wrong with it and where.
pub fn prompts(part: &[u8]) -> Result<Vec<&[u8]>, String> {
    let mut prompts = Vec::new();
    let mut rest = part;
    while !rest.is_empty() {
        let (number, at) = (prompts.len(), part.len() - rest.len());
        if number == PROMPTS {
            return Err(format!(
                "prompt {} ends at byte {at}: expected the end of the part, found more bytes",
                PROMPTS - 1
            ));
        }
        let (prompt, after) = first(rest)
            .map_err(|why| format!("prompt {number}, which begins at byte {at}: {why}"))?;
        prompts.push(prompt);
        rest = after;
    }
    Ok(prompts)
}

/// The first prompt of bytes, and what follows it.
fn first(bytes: &[u8]) -> Result<(&[u8], &[u8]), String> {
    let bytes_of = |length: usize| text::count(length as u64, "byte", "bytes");
    let (length, after) = bytes
        .split_first_chunk::<LENGTH>()
        .ok_or_else(|| format!("expected a length of {LENGTH} bytes, found 1 byte"))?;
    let length = usize::from(u16::from_le_bytes(*length));
    if length > BLOCK {
        return Err(format!(
            "expected a length of at most {BLOCK}, found {length}"
        ));
    }
    after.split_at_checked(length).ok_or_else(|| {
        format!(
            "expected {} after its length, found {}",
            bytes_of(length),
            bytes_of(after.len())
        )
    })
}

#[cfg(test)]
mod tests {
    use super::*;

    #[test]
    fn prompts_are_read_in_turn() {
        assert_eq!(prompts(b""), Ok(vec![]));
        assert_eq!(prompts(b"\0\0"), Ok(vec![&b""[..]]));
        let three = [b"\x05\0hello\0\0\0\x02", &[b'x'; 512][..]].concat();
        let expected: [&[u8]; 3] = [b"hello", b"", &[b'x'; 512]];
        assert_eq!(prompts(&three), Ok(expected.to_vec()));
        assert_eq!(prompts(&[0; 32]).unwrap().len(), 16);
        let longest = [b"\0\x02", &[b'x'; 512][..]].concat().repeat(16);
        assert_eq!(longest.len(), LONGEST);
        assert_eq!(prompts(&longest).unwrap().len(), 16);
    }

    #[test]
    fn what_is_no_part_is_told_with_the_prompt() {
        for (part, why) in [
            (
                &b"\x05"[..],
                "prompt 0, which begins at byte 0: expected a length of 2 bytes, found 1 byte",
            ),
            (
                b"\x01\0",
                "prompt 0, which begins at byte 0: expected 1 byte after its length, found 0 bytes",
            ),
            (
                b"\x01\0a\x03\0bc",
                "prompt 1, which begins at byte 3: expected 3 bytes after its length, found 2 bytes",
            ),
            (
                b"\x01\0a\0",
                "prompt 1, which begins at byte 3: expected a length of 2 bytes, found 1 byte",
            ),
            (
                &[b"\x01\x02", &[b'x'; 513][..]].concat(),
                "prompt 0, which begins at byte 0: expected a length of at most 512, found 513",
            ),
            (
                &[0; 33],
                "prompt 15 ends at byte 32: expected the end of the part, found more bytes",
            ),
            (
                &[0; 34],
                "prompt 15 ends at byte 32: expected the end of the part, found more bytes",
            ),
        ] {
            assert_eq!(prompts(part), Err(why.into()));
        }
    }
}
