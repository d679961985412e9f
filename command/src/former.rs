//! Store files of version 1, in which files and processes had no group and bits were the others'
//! rights alone: such a store in the tables of today, with no right on it changed.

use crate::diagnosis::Defect;
use crate::format::{self, Header, Shape, FORMER_VERSION, VERSION};
use crate::ranges::ALL_RIGHTS;
use mritvelja::layout::*;
use mritvelja::Tables;

/// The numbers of slots that such a store may have, the later one first.
const FORMER_SLOTS: [usize; 2] = [128, 64];

// Numbers of version 1, which stay whatever those of today become.
const FILE_WIDTH_BEFORE: usize = 7;
const FILE_BITS_BEFORE: usize = 2;
/// There were no links.
const LAST_KIND_BEFORE: u32 = DIRECTORY;
const PROCESS_WIDTH_BEFORE: usize = 11;
const PROCESS_LABEL_BEFORE: usize = 2;

/// The group of every file and process in use, as the papers' test console has it.
const GROUP: u32 = 1;

const fn shape(slots: usize) -> Shape {
    Shape {
        slots,
        file_width: FILE_WIDTH_BEFORE,
        process_width: PROCESS_WIDTH_BEFORE,
    }
}

/// The store in a file of version 1, converted. One that was not sound is refused, or not sound converted.
pub fn decode(bytes: &[u8], length: u64) -> Result<Tables, String> {
    match Header::read(bytes)? {
        None => {
            let [later, earlier] = FORMER_SLOTS.map(|slots| shape(slots).size());
            Err(format::wrong_size(format!("{later} or {earlier}"), length))
        }
        Some(Header {
            version: VERSION, ..
        }) => Err(format!(
            "is of version {VERSION} already, and needs no conversion"
        )),
        Some(Header { version, .. }) if version != FORMER_VERSION => {
            Err(format::wrong_version(FORMER_VERSION, version))
        }
        Some(Header { slots, .. }) if !FORMER_SLOTS.contains(&slots) => {
            let [later, earlier] = FORMER_SLOTS;
            Err(format::wrong_slots(format!("{later} or {earlier}"), slots))
        }
        Some(Header { slots, .. }) => {
            let tables = shape(slots).take_tables(bytes, length)?;
            require_ranges(&tables.files).map_err(|defect| defect.to_string())?;
            Ok(converted(tables))
        }
    }
}

/// Refuses kinds and bits that were out of range: once converted they might not be.
fn require_ranges(files: &[u32]) -> Result<(), Defect> {
    let records = files.as_chunks::<FILE_WIDTH_BEFORE>().0;
    for (slot, record) in records.iter().enumerate() {
        for (column, field, last) in [
            (FILE_KIND, "kind", LAST_KIND_BEFORE),
            (FILE_BITS_BEFORE, "bits", ALL_RIGHTS),
        ] {
            let value = record[column];
            if value > last {
                let place = format!("slot {slot}: {field} is {value}, not 0 to {last}");
                return Err(Defect::out_of_range(place));
            }
        }
    }
    Ok(())
}

fn converted(tables: Tables) -> Tables {
    let files = tables.files.as_chunks().0.iter().flat_map(file);
    let mut files: Vec<u32> = files.collect();
    files.resize(FILES_SIZE, 0);
    let processes = tables.processes.as_chunks().0.iter().flat_map(process);
    let processes = processes.collect();
    let mut contents = tables.contents;
    contents.resize(CONTENTS_SIZE, 0);
    Tables {
        files,
        contents,
        processes,
        ..tables
    }
}

/// A file's record: the owner could do everything, and the group no more than the others.
fn file(before: &[u32; FILE_WIDTH_BEFORE]) -> [u32; FILE_WIDTH] {
    let &[kind, owner, others, label, length, links, version] = before;
    let (group, bits) = match kind {
        FREE => (0, others),
        _ => (GROUP, ALL_RIGHTS << 6 | others << 3 | others),
    };
    [kind, owner, group, bits, label, length, links, version]
}

fn process(before: &[u32; PROCESS_WIDTH_BEFORE]) -> [u32; PROCESS_WIDTH] {
    let group = if before[PROCESS_USED] == 0 { 0 } else { GROUP };
    let (subject, rest) = before.split_at(PROCESS_LABEL_BEFORE);
    let mut record = [0; PROCESS_WIDTH];
    record[..PROCESS_GROUP].copy_from_slice(subject);
    record[PROCESS_GROUP] = group;
    record[PROCESS_LABEL..].copy_from_slice(rest);
    record
}

#[cfg(test)]
mod tests {
    use super::*;
    use crate::diagnosis::first_defect;
    use crate::format::HEADER;
    use mritvelja::test_console;

    /// The file of version 1 of a store whose groups and bits are such as a conversion gives.
    fn encode(tables: &Tables, slots: usize) -> Vec<u8> {
        let mut bytes = b"MRITVEL\x01".to_vec();
        bytes.extend((slots as u32).to_le_bytes());
        let word = |&word: &u32| word.to_le_bytes();
        for slot in 0..slots {
            let mut record = tables.file(slot).to_vec();
            record[FILE_BITS] &= ALL_RIGHTS;
            record.remove(FILE_GROUP);
            bytes.extend(record.iter().flat_map(word));
        }
        bytes.extend(&tables.contents[..slots * BLOCK]);
        bytes.extend(tables.open_files.iter().flat_map(word));
        for process in 0..PROCESSES {
            let mut record = tables.process(process).to_vec();
            record.remove(PROCESS_GROUP);
            bytes.extend(record.iter().flat_map(word));
        }
        bytes.extend(&tables.policy);
        bytes
    }

    fn decode_whole(bytes: &[u8]) -> Result<Tables, String> {
        decode(bytes, bytes.len() as u64)
    }

    fn changed(bytes: &[u8], at: usize, byte: u8) -> Vec<u8> {
        let mut changed = bytes.to_vec();
        changed[at] = byte;
        changed
    }

    #[test]
    fn the_test_console_is_converted_to_that_of_today() {
        for (slots, size) in [(128, 70_508), (64, 35_948)] {
            let before = encode(&test_console(), slots);
            assert_eq!(before.len(), size);
            assert_eq!(decode_whole(&before), Ok(test_console()));
        }
    }

    #[test]
    fn every_byte_but_of_kinds_and_bits_is_kept() {
        let before = encode(&test_console(), 64);
        let is_tested =
            |at: usize| at < 64 * 28 && [FILE_KIND, FILE_BITS_BEFORE].contains(&(at % 28 / 4));
        for at in (HEADER..before.len()).filter(|&at| !is_tested(at - HEADER)) {
            let changed = changed(&before, at, before[at] ^ 0x80);
            assert_eq!(encode(&decode_whole(&changed).unwrap(), 64), changed);
        }
    }

    #[test]
    fn a_store_that_was_not_sound_is_not_sound_converted() {
        let before = encode(&test_console(), 128);
        let bits = |slot: usize| HEADER + 28 * slot + 4 * FILE_BITS_BEFORE;
        for wrong in [8, 9, 64, 255] {
            let why = decode_whole(&changed(&before, bits(2), wrong)).unwrap_err();
            let place = format!("\"all fields in range\" does not hold: slot 2: bits is {wrong}, ");
            assert!(why.contains(&place) && why.ends_with("not 0 to 7"), "{why}");
        }
        let far = changed(&before, bits(2) + 3, 255);
        assert!(decode_whole(&far).is_err());
        let link = decode_whole(&changed(&before, HEADER + 28 * 2, 3)).unwrap_err();
        assert!(link.contains("slot 2: kind is 3, not 0 to 2"), "{link}");
        let free = decode_whole(&changed(&before, bits(9), 7)).unwrap();
        let defect = first_defect(&free).unwrap();
        assert!(defect.place.contains("slot 9: a free record"), "{defect}");
    }

    #[test]
    fn no_other_file_is_converted() {
        let why = |bytes: &[u8]| decode_whole(bytes).unwrap_err();
        let now = crate::format::encode(&test_console());
        assert_eq!(
            why(&now),
            "is of version 2 already, and needs no conversion"
        );
        for (slots, size) in [(128, 70_508), (64, 35_948)] {
            let before = encode(&test_console(), slots);
            assert!(why(&changed(&before, 0, b'm')).contains("not a store file"));
            assert!(why(&changed(&before, 7, 3)).contains("version: expected 1, found 3"));
            assert!(why(&changed(&before, 7, 0)).contains("version: expected 1, found 0"));
            assert!(why(&changed(&before, 8, 63)).contains("expected 128 or 64, found 63"));
            for length in [12, size - 1, size + 1] {
                let mut other = before.clone();
                other.resize(length, 0);
                let expected = format!("expected {size} bytes, found {length}");
                assert!(why(&other).ends_with(&expected));
            }
            assert!(why(&before[..11]).ends_with("expected 70508 or 35948 bytes, found 11"));
        }
    }
}
