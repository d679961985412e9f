//! Blocks by chance: calls that fit the store at hand, and some at the limits
//! of what a script can write.

use super::block::Block;
use crate::call::CALLS;
use crate::chance::Chance;
use crate::generate::CallMaker;
use mritvelja::calls::{parts, reads, uses, Field, Part};
use mritvelja::Tables;

/// Numbers about those that fit a byte, a read and a script.
const EDGES: [u16; 14] = [
    8, 9, 254, 255, 256, 257, 258, 511, 512, 513, 65_279, 65_280, 65_534, 65_535,
];
const READ_SIZES: [u16; 10] = [0, 1, 255, 256, 511, 512, 513, 514, 1_024, 65_535];
const PATH_LENGTHS: [usize; 11] = [63, 64, 65, 127, 128, 255, 256, 257, 320, 512, 1_200];
const DATA_LENGTHS: [usize; 11] = [255, 256, 257, 511, 512, 513, 600, 768, 1_024, 1_025, 1_200];

/// A block that is not broken, save for a rare path with byte 10.
pub fn block(chance: &mut Chance, maker: &CallMaker, tables: &Tables) -> Block {
    let mut block = Block::of(&maker.call(chance, tables));
    if chance.one_in(5) {
        vary(&mut block, chance);
    }
    without_line_end(&mut block, chance);
    block
}

/// A block of a call that passes, 0 being an unknown one.
pub fn block_of(
    chance: &mut Chance,
    maker: &CallMaker,
    tables: &Tables,
    pass: fn(u16) -> bool,
) -> Block {
    let calls: Vec<u8> = (0..=CALLS as u8)
        .filter(|&call| pass(call.into()))
        .collect();
    let call = chance.pick(&calls);
    let mut block = Block::of(&maker.call_of(chance, tables, call));
    without_line_end(&mut block, chance);
    block
}

/// Brings a part that the call uses to a limit.
fn vary(block: &mut Block, chance: &mut Chance) {
    let call = block.call;
    match chance.below(8) {
        0 | 1 => raise(block, chance),
        2 => block.process = chance.pick(&EDGES),
        3 if uses(call, Field::Descriptor) => block.descriptor = chance.pick(&EDGES),
        4 if reads(call) => block.number = chance.pick(&READ_SIZES),
        4 if uses(call, Field::Number) => block.number = chance.pick(&EDGES),
        5 if uses(call, Field::Path) => block.path = long_path(&block.path, chance),
        6 if data_is_path(call) => block.data = long_path(&block.data, chance),
        6 if uses(call, Field::Data) => {
            let length = chance.pick(&DATA_LENGTHS);
            block.data = chance.bytes(length);
        }
        _ => make_unknown(block, chance),
    }
}

/// Whether a call takes its data for a path.
fn data_is_path(call: u16) -> bool {
    let is_path = |part: &Part| matches!(part, Part::NewPath | Part::Target);
    parts(call).is_some_and(|parts| parts.iter().any(is_path))
}

/// A number that would be the old one again if it were cut to a byte.
fn raise(block: &mut Block, chance: &mut Chance) {
    let more = 256 * chance.pick(&[1, 1, 2, 127, 254]);
    match chance.below(3) {
        0 => block.process += more,
        1 => block.call += more,
        _ if uses(block.call, Field::Descriptor) => block.descriptor += more,
        _ => block.process += more,
    }
}

/// An unknown call, which may use every part.
fn make_unknown(block: &mut Block, chance: &mut Chance) {
    block.call = chance.pick(&[0, 21, 22, 23, 255, 256, 257, 267, 65_535]);
    block.descriptor = chance.pick(&EDGES);
    block.number = chance.pick(&EDGES);
    if chance.one_in(2) {
        block.path = long_path(b"/", chance);
    }
    if chance.one_in(2) {
        let length = chance.pick(&DATA_LENGTHS);
        block.data = chance.bytes(length);
    }
}

/// The path with more before it, after it or instead of it.
fn long_path(path: &[u8], chance: &mut Chance) -> Vec<u8> {
    let length = chance.pick(&PATH_LENGTHS);
    let slashes = vec![b'/'; length.saturating_sub(path.len())];
    match chance.below(4) {
        0 => chance.bytes(length),
        1 => [path, &slashes].concat(),
        _ => [&slashes, path].concat(),
    }
}

/// Takes byte 10 from the path, which would end its line, nearly always.
fn without_line_end(block: &mut Block, chance: &mut Chance) {
    if chance.one_in(20) {
        return;
    }
    for byte in &mut block.path {
        if *byte == b'\n' {
            *byte = 11;
        }
    }
}
