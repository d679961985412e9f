//! Names for files: short ones that meet again, long ones and odd bytes.

use crate::chance::Chance;
use mritvelja::layout::NAME;

const SHORT: [&[u8]; 20] = [
    b"a", b"b", b"c", b"d", b"e", b"f", b"x", b"y", b"aa", b"ab", b"abc", b"now", b"key", b"...",
    b".a", b"a.", b"..b", b"\xff", b"\x01", b" ",
];
const LONG: [&[u8]; 4] = [
    b"fares",
    b"fourteen-bytes",
    b"fourteen-bytez",
    b"thirteen-byte",
];

/// A valid name; of at most 3 bytes where it must be short.
pub fn name(chance: &mut Chance, short: bool) -> Vec<u8> {
    match chance.below(10) {
        0..=6 => chance.pick(&SHORT).to_vec(),
        7 if !short => chance.pick(&LONG).to_vec(),
        _ => odd_name(chance, if short { 3 } else { NAME }),
    }
}

fn odd_name(chance: &mut Chance, longest: usize) -> Vec<u8> {
    let length = chance.between(1, longest);
    let mut name = chance.bytes(length);
    for byte in &mut name {
        if matches!(*byte, 0 | b'/' | b'.') {
            *byte = b'z';
        }
    }
    name
}
