//! The depot's scripts: calls read from blocks of six lines, and answers
//! written as three.

use crate::answer::Answer;
use crate::command::Request;
use crate::directory::BLOCK;
use crate::parts::{Parts, READ, READ_SYMLINK};
use crate::records::FILE_WIDTH;

/// The most bytes that a scripted read may ask for.
pub const LARGEST_READ: u16 = BLOCK as u16;

/// The length of the longest answer: a read of 512 bytes.
pub const LONGEST_ANSWER: usize = "answer=00\nvalue=512\ndata=\n".len() + 2 * BLOCK;

const UNKNOWN: u8 = 0;

/// A call as its block gives it. The numbers may be higher than those of any
/// process, call or descriptor.
pub struct Scripted<'a> {
    process: u16,
    call: u16,
    descriptor: u16,
    number: u16,
    pub path: &'a [u8],
    pub data: Vec<u8>,
}

impl<'a> Scripted<'a> {
    /// The call at the start of these bytes and the bytes after its block,
    /// unless the block is broken.
    pub fn parse(script: &'a [u8]) -> Option<(Scripted<'a>, &'a [u8])> {
        let mut lines = Lines(script);
        let scripted = Scripted {
            process: number(lines.next(b"proc=")?)?,
            call: number(lines.next(b"call=")?)?,
            descriptor: number(lines.next(b"fd=")?)?,
            number: number(lines.next(b"arg=")?)?,
            path: lines.next(b"path=")?,
            data: from_hex(lines.next(b"data=")?)?,
        };
        scripted
            .leaves_unused_empty()
            .then_some((scripted, lines.0))
    }

    /// Whether each part that the call does not use is 0 or empty.
    fn leaves_unused_empty(&self) -> bool {
        let used = Parts::of(self.call);
        (used.descriptor || self.descriptor == 0)
            && (used.number || self.number == 0)
            && (used.path || self.path.is_empty())
            && (used.data || self.data.is_empty())
    }

    /// The numbers of the call. A read of too much is malformed as an unknown
    /// call is, and refused at the same point, so it is asked as one.
    pub fn request(&self) -> Request {
        let too_much = self.reads() && self.number > LARGEST_READ;
        Request {
            process: byte(self.process),
            call: if too_much { UNKNOWN } else { byte(self.call) },
            descriptor: byte(self.descriptor),
            number: self.number,
        }
    }

    /// Whether the call's answer is in a buffer lent to it.
    fn reads(&self) -> bool {
        matches!(self.call, READ | READ_SYMLINK)
    }

    /// The size of the buffer to lend.
    pub fn read_size(&self) -> usize {
        if self.reads() {
            usize::from(self.number.min(LARGEST_READ))
        } else {
            0
        }
    }

    /// The three lines of the call's answer.
    pub fn answer_lines(&self, answer: &Answer, buffer: &[u8]) -> String {
        let data = match answer.fields {
            Some(fields) => to_hex(&stat_bytes(fields)),
            None if self.reads() => to_hex(&buffer[..answer.value as usize]),
            None => to_hex(&answer.name),
        };
        let (refusal, value) = (answer.refusal, answer.value);
        format!("answer={refusal}\nvalue={value}\ndata={data}\n")
    }
}

/// The lines of a script that are still to be read.
struct Lines<'a>(&'a [u8]);

impl<'a> Lines<'a> {
    /// What stands after the key in the next line, if it has that key and its
    /// end.
    fn next(&mut self, key: &[u8]) -> Option<&'a [u8]> {
        let end = self.0.iter().position(|&byte| byte == b'\n')?;
        let line = &self.0[..end];
        self.0 = &self.0[end + 1..];
        line.strip_prefix(key)
    }
}

/// The number written in these bytes: decimal, without leading zeros, at most
/// 65,535.
fn number(text: &[u8]) -> Option<u16> {
    let leading_zero = text.len() > 1 && text.starts_with(b"0");
    if leading_zero || !text.iter().all(u8::is_ascii_digit) {
        return None;
    }
    str::from_utf8(text).ok()?.parse().ok()
}

/// The number as a byte. One that is too high becomes 255, which is no
/// process, call or descriptor either.
fn byte(number: u16) -> u8 {
    u8::try_from(number).unwrap_or(u8::MAX)
}

fn from_hex(text: &[u8]) -> Option<Vec<u8>> {
    match text.as_chunks() {
        (pairs, []) => pairs
            .iter()
            .map(|&[high, low]| Some(16 * digit(high)? + digit(low)?))
            .collect(),
        _ => None,
    }
}

fn digit(character: u8) -> Option<u8> {
    match character {
        b'0'..=b'9' => Some(character - b'0'),
        b'a'..=b'f' => Some(character - b'a' + 10),
        _ => None,
    }
}

fn to_hex(bytes: &[u8]) -> String {
    const DIGITS: [char; 16] = [
        '0', '1', '2', '3', '4', '5', '6', '7', '8', '9', 'a', 'b', 'c', 'd', 'e', 'f',
    ];
    bytes
        .iter()
        .flat_map(|&byte| [byte >> 4, byte & 15])
        .map(|digit| DIGITS[usize::from(digit)])
        .collect()
}

/// Stat's fields in their widths, little end first.
fn stat_bytes(fields: [u32; FILE_WIDTH]) -> Vec<u8> {
    const WIDTHS: [usize; FILE_WIDTH] = [1, 2, 2, 2, 1, 2, 2, 4];
    fields
        .iter()
        .zip(WIDTHS)
        .flat_map(|(field, width)| field.to_le_bytes().into_iter().take(width))
        .collect()
}
