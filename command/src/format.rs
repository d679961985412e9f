//! The bytes of a store file (`docs/store-file.md`): a header, the tables, the policy. The
//! factory part is not in them.

use crate::text;
use mritvelja::layout::{
    BLOCK, FILE_WIDTH, OPEN_FILES_SIZE, POLICY_SIZE, PROCESSES, PROCESS_WIDTH, SLOTS,
};
use mritvelja::Tables;

const MAGIC: &[u8; 7] = b"MRITVEL";
pub const VERSION: u8 = 2;
/// The version that `convert` takes.
pub const FORMER_VERSION: u8 = 1;
const WORD: usize = 4;
pub const HEADER: usize = MAGIC.len() + 1 + WORD;

/// How many bytes a store file has.
pub const SIZE: usize = SHAPE.size();

const SHAPE: Shape = Shape {
    slots: SLOTS,
    file_width: FILE_WIDTH,
    process_width: PROCESS_WIDTH,
};

/// What the versions of a store file differ in.
#[derive(Clone, Copy)]
pub struct Shape {
    pub slots: usize,
    pub file_width: usize,
    pub process_width: usize,
}

/// Why a file's bytes are no store that this version takes.
#[derive(Debug, PartialEq, Eq)]
pub enum Refused {
    /// A file of the version before: it can be converted.
    Former,
    /// What was expected and what was found.
    Other(String),
}

pub fn encode(tables: &Tables) -> Vec<u8> {
    let mut bytes = Vec::with_capacity(SIZE);
    bytes.extend(MAGIC);
    bytes.push(VERSION);
    bytes.extend((SLOTS as u32).to_le_bytes());
    bytes.extend(from_words(&tables.files));
    bytes.extend(&tables.contents);
    bytes.extend(from_words(&tables.open_files));
    bytes.extend(from_words(&tables.processes));
    bytes.extend(&tables.policy);
    bytes
}

/// The store in a file of `length` bytes, given the first of them, at least
/// [`SIZE`] where there are as many.
pub fn decode(bytes: &[u8], length: u64) -> Result<Tables, Refused> {
    let other = Refused::Other;
    let header = Header::read(bytes).map_err(other)?;
    match header.ok_or_else(|| other(wrong_size(SIZE, length)))? {
        Header {
            version: VERSION,
            slots: SLOTS,
        } => SHAPE.take_tables(bytes, length).map_err(other),
        Header {
            version: VERSION,
            slots,
        } => Err(other(wrong_slots(SLOTS, slots))),
        Header {
            version: FORMER_VERSION,
            ..
        } => Err(Refused::Former),
        Header { version, .. } => Err(other(wrong_version(VERSION, version))),
    }
}

impl Shape {
    /// How many bytes a file of this shape has.
    pub const fn size(self) -> usize {
        HEADER
            + self.files()
            + self.slots * BLOCK
            + WORD * OPEN_FILES_SIZE
            + self.processes()
            + POLICY_SIZE
    }

    const fn files(self) -> usize {
        WORD * self.slots * self.file_width
    }

    const fn processes(self) -> usize {
        WORD * PROCESSES * self.process_width
    }

    /// The tables of a file of this shape.
    pub fn take_tables(self, bytes: &[u8], length: u64) -> Result<Tables, String> {
        let size = self.size();
        if length != size as u64 || bytes.len() < size {
            return Err(wrong_size(size, length));
        }
        let mut rest = &bytes[HEADER..size];
        let mut take = |size: usize| {
            let (table, after) = rest.split_at(size);
            rest = after;
            table
        };
        Ok(Tables {
            files: to_words(take(self.files())),
            contents: take(self.slots * BLOCK).to_vec(),
            open_files: to_words(take(WORD * OPEN_FILES_SIZE)),
            processes: to_words(take(self.processes())),
            policy: take(POLICY_SIZE).to_vec(),
            rom: Vec::new(),
        })
    }
}

/// What stands before the tables.
pub struct Header {
    pub version: u8,
    pub slots: usize,
}

impl Header {
    /// The header of a store file; nothing of a file that is too short to have one.
    pub fn read(bytes: &[u8]) -> Result<Option<Header>, String> {
        let Some((header, _)) = bytes.split_first_chunk::<HEADER>() else {
            return Ok(None);
        };
        let (magic, rest) = header.split_at(MAGIC.len());
        if magic != MAGIC {
            return Err(format!(
                "not a store file: expected the first {} bytes to be {}, found {}",
                MAGIC.len(),
                text::readable(MAGIC),
                text::readable(magic)
            ));
        }
        Ok(Some(Header {
            version: rest[0],
            slots: to_words(&rest[1..])[0] as usize,
        }))
    }
}

pub fn wrong_version(expected: u8, found: u8) -> String {
    format!("a store file of another version: expected {expected}, found {found}")
}

pub fn wrong_slots(expected: impl std::fmt::Display, found: usize) -> String {
    format!("a store file of another number of slots: expected {expected}, found {found}")
}

pub fn wrong_size(expected: impl std::fmt::Display, found: u64) -> String {
    format!("a store file of the wrong size: expected {expected} bytes, found {found}")
}

fn from_words(words: &[u32]) -> impl Iterator<Item = u8> + '_ {
    words.iter().flat_map(|word| word.to_le_bytes())
}

fn to_words(bytes: &[u8]) -> Vec<u32> {
    let (words, _) = bytes.as_chunks::<WORD>();
    words.iter().map(|&word| u32::from_le_bytes(word)).collect()
}

#[cfg(test)]
mod tests {
    use super::*;
    use mritvelja::test_console;

    fn decode_whole(bytes: &[u8]) -> Result<Tables, Refused> {
        decode(bytes, bytes.len() as u64)
    }

    fn changed(bytes: &[u8], at: usize, byte: u8) -> Vec<u8> {
        let mut changed = bytes.to_vec();
        changed[at] = byte;
        changed
    }

    #[test]
    fn a_store_is_read_as_it_was_written() {
        let tables = test_console();
        let bytes = encode(&tables);
        assert_eq!(bytes.len(), 71_052);
        assert_eq!(&bytes[..12], b"MRITVEL\x02\x80\0\0\0");
        assert_eq!(decode_whole(&bytes), Ok(tables));
    }

    #[test]
    fn the_factory_part_is_not_written() {
        let mut tables = test_console();
        tables.rom = b"\x05\0hello".to_vec();
        assert_eq!(encode(&tables), encode(&test_console()));
    }

    #[test]
    fn every_byte_past_the_header_is_read() {
        let bytes = encode(&test_console());
        for at in HEADER..SIZE {
            let changed = changed(&bytes, at, bytes[at] ^ 0x80);
            assert_eq!(encode(&decode_whole(&changed).unwrap()), changed);
        }
    }

    #[test]
    fn a_wrong_file_is_refused_with_what_was_expected() {
        let bytes = encode(&test_console());
        let why = |bytes: &[u8]| match decode_whole(bytes).unwrap_err() {
            Refused::Other(why) => why,
            Refused::Former => panic!("version 1"),
        };
        let magic = why(&changed(&bytes, 0, b'm'));
        assert!(magic.contains("expected the first 7 bytes to be MRITVEL, found mRITVEL"));
        assert!(why(&changed(&bytes, 7, 3)).contains("version: expected 2, found 3"));
        assert!(why(&changed(&bytes, 8, 127)).contains("slots: expected 128, found 127"));
        assert!(why(&changed(&bytes, 8, 64)).contains("slots: expected 128, found 64"));
        assert!(why(&changed(&bytes, 9, 1)).contains("slots: expected 128, found 384"));
        for length in [0, 11, 12, 70_508, SIZE - 1, SIZE + 1] {
            let mut other = bytes.clone();
            other.resize(length, 0);
            assert!(why(&other).ends_with(&format!("expected 71052 bytes, found {length}")));
        }
    }

    #[test]
    fn a_file_of_version_1_is_known() {
        let former = changed(&encode(&test_console()), 7, FORMER_VERSION);
        assert_eq!(decode_whole(&former), Err(Refused::Former));
        assert_eq!(decode_whole(&former[..HEADER]), Err(Refused::Former));
    }
}
