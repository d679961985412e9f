//! The records that `crates/recorded` reads (docs/recorded.md).

use crate::tables::{Tables, SIZES};

/// Room for one word more than the tables should have.
pub const ROOM: [usize; 5] = {
    let [files, contents, open_files, processes, policy] = SIZES;
    [
        files + 1,
        contents + 1,
        open_files + 1,
        processes + 1,
        policy + 1,
    ]
};
/// Room for the factory part.
pub const ROM_ROOM: usize = 9_216;
pub const BUFFER: usize = 1024;
pub const BUFFER_BYTE: u8 = 170;
const CALL: u8 = 6;
const CLEAR: u8 = 7;
const ROM: u8 = 8;
const BORROW: u8 = 9;
/// Runs of equal words no longer than this are written with their neighbours.
const GAP: usize = 6;
const LONGEST: usize = 16_000;

/// One record: its kind, how many bytes follow, and these.
pub fn record(kind: u8, bytes: &[u8]) -> Vec<u8> {
    let mut out = vec![kind];
    out.extend((bytes.len() as u16).to_le_bytes());
    out.extend(bytes);
    out
}

pub fn sizes(sizes: [usize; 5]) -> Vec<u8> {
    let bytes: Vec<u8> = sizes
        .iter()
        .flat_map(|&size| (size as u32).to_le_bytes())
        .collect();
    record(0, &bytes)
}

/// All tables 0 and of the right sizes.
pub fn clear() -> Vec<u8> {
    record(CLEAR, &[])
}

/// A call as it is written down, after the buffer's size.
pub fn call(numbers: [u8; 3], number: u16, path: &[u8], data: &[u8], buffer: usize) -> Vec<u8> {
    let mut bytes = (buffer as u16).to_le_bytes().to_vec();
    bytes.extend(numbers);
    bytes.extend(number.to_le_bytes());
    bytes.push(path.len() as u8);
    bytes.extend(path);
    bytes.extend(data);
    record(CALL, &bytes)
}

/// The factory part, whole.
pub fn rom(bytes: &[u8]) -> Vec<u8> {
    record(ROM, bytes)
}

pub fn borrow(process: u8, descriptor: u8, count: u32) -> Vec<u8> {
    record(
        BORROW,
        &[&[process, descriptor], &count.to_le_bytes()[..]].concat(),
    )
}

/// The records that turn one state of the tables into another.
pub fn changes(from: &Tables, to: &Tables) -> Vec<u8> {
    let word = |word: &u32| word.to_le_bytes().to_vec();
    let byte = |byte: &u8| vec![*byte];
    let part = match from.rom == to.rom {
        true => Vec::new(),
        false => rom(&to.rom),
    };
    [
        part,
        patches(1, &from.files, &to.files, word),
        patches(2, &from.contents, &to.contents, byte),
        patches(3, &from.open_files, &to.open_files, word),
        patches(4, &from.processes, &to.processes, word),
        patches(5, &from.policy, &to.policy, byte),
    ]
    .concat()
}

fn patches<T: PartialEq>(
    kind: u8,
    from: &[T],
    to: &[T],
    written: impl Fn(&T) -> Vec<u8>,
) -> Vec<u8> {
    let mut out = Vec::new();
    let mut at = 0;
    while let Some(skip) = (at..to.len()).position(|i| from[i] != to[i]) {
        let start = at + skip;
        let end = run_end(from, to, start);
        let mut bytes = (start as u32).to_le_bytes().to_vec();
        bytes.extend(to[start..end].iter().flat_map(&written));
        out.extend(record(kind, &bytes));
        at = end;
    }
    out
}

/// Where a run of changes ends: before a longer run of equal words.
fn run_end<T: PartialEq>(from: &[T], to: &[T], start: usize) -> usize {
    let mut end = start + 1;
    for i in start..to.len().min(start + LONGEST) {
        if from[i] != to[i] {
            end = i + 1;
        } else if i - end >= GAP {
            break;
        }
    }
    end
}
