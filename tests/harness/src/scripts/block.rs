//! A call as a script's block writes it. Its numbers may be higher than those
//! of any process, call or descriptor.

use crate::call::Call;
use mritvelja::calls::{reads, uses, Field};

const KEYS: [&str; 6] = ["proc=", "call=", "fd=", "arg=", "path=", "data="];

#[derive(Clone, Debug)]
pub struct Block {
    pub process: u16,
    pub call: u16,
    pub descriptor: u16,
    pub number: u16,
    pub path: Vec<u8>,
    pub data: Vec<u8>,
}

impl Block {
    /// The call without what it does not use. A read asks for its buffer's size.
    pub fn of(call: &Call) -> Block {
        let number = u16::from(call.call);
        let word = |field, word| if uses(number, field) { word } else { 0 };
        let bytes = |field, bytes: &[u8]| match uses(number, field) {
            true => bytes.to_vec(),
            false => Vec::new(),
        };
        Block {
            process: call.process.into(),
            call: number,
            descriptor: word(Field::Descriptor, call.descriptor.into()),
            number: match reads(number) {
                true => call.buffer.len() as u16,
                false => word(Field::Number, call.number),
            },
            path: bytes(Field::Path, &call.path),
            data: bytes(Field::Data, &call.data),
        }
    }

    /// The six lines, each with its key and its end.
    pub fn lines(&self) -> [Vec<u8>; 6] {
        let values = [
            self.process.to_string().into_bytes(),
            self.call.to_string().into_bytes(),
            self.descriptor.to_string().into_bytes(),
            self.number.to_string().into_bytes(),
            self.path.clone(),
            hex(&self.data),
        ];
        let mut keys = KEYS.iter();
        values.map(|value| {
            let key = keys.next().map_or(&b""[..], |key| key.as_bytes());
            [key, &value, b"\n"].concat()
        })
    }

    pub fn text(&self) -> Vec<u8> {
        self.lines().concat()
    }
}

fn hex(bytes: &[u8]) -> Vec<u8> {
    const DIGITS: &[u8; 16] = b"0123456789abcdef";
    bytes
        .iter()
        .flat_map(|&byte| [byte >> 4, byte & 15])
        .map(|digit| DIGITS[usize::from(digit)])
        .collect()
}
