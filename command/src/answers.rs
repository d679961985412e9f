//! An answer in words.

use crate::show::{fields, kind};
use crate::text;
use mritvelja::layout::FILE_WIDTH;
use mritvelja::{calls, refusals, Answer};

/// What an answer says, of which a script's output has not the stop.
pub struct Told<'a> {
    pub refusal: u32,
    pub stop: u32,
    pub value: u32,
    /// A listed name, or the bytes of a read or a readlink where they are at hand.
    pub bytes: Option<&'a [u8]>,
    /// Of stat.
    pub record: [u32; FILE_WIDTH],
}

impl<'a> From<&'a Answer> for Told<'a> {
    fn from(answer: &'a Answer) -> Told<'a> {
        Told {
            refusal: answer.refusal,
            stop: answer.stop,
            value: answer.value,
            bytes: answer.name.get(..answer.name_length as usize),
            record: answer.fields,
        }
    }
}

/// The refusal's number and what it means.
pub fn refusal(refusal: u32) -> String {
    format!("{refusal}, {}", refusals::text(refusal))
}

/// The answer to a call.
pub fn words(call: u16, told: &Told) -> String {
    if told.refusal != refusals::GRANTED {
        let refusal = refusal(told.refusal);
        return match told.stop {
            0 => format!("refused: {refusal}"),
            stop => format!("refused: {refusal}, at name {stop}"),
        };
    }
    match granted(u8::try_from(call).unwrap_or(0), told) {
        None => "granted".into(),
        Some(what) => format!("granted: {what}"),
    }
}

/// What a granted call gives; nothing where it only does what it says.
fn granted(call: u8, told: &Told) -> Option<String> {
    let value = told.value;
    Some(match call {
        calls::OPEN | calls::DUPLICATE => format!("descriptor {value}"),
        calls::CREATE | calls::MAKE_DIRECTORY | calls::SYMLINK => format!("slot {value}"),
        calls::LIST if value == 0 => "no name there".into(),
        calls::LIST => format!("name {}", text::readable(told.bytes?)),
        calls::STAT => format!("{}, {}", kind(&told.record), fields(&told.record)),
        calls::READ | calls::READLINK => match told.bytes {
            Some(bytes) if !bytes.is_empty() => {
                format!("{}, {}", byte_count(value), text::quote(bytes))
            }
            _ => byte_count(value),
        },
        calls::WRITE => byte_count(value),
        calls::SEEK => format!("offset {value}"),
        calls::FORK => format!("process {value}"),
        _ => return None,
    })
}

fn byte_count(value: u32) -> String {
    text::count(value.into(), "byte", "bytes")
}
