//! Descriptions written and read again.

use super::{read, write};
use crate::ranges::label_pairs;
use mritvelja::layout::*;
use mritvelja::{call, calls, sound, test_console, Request, Tables};

/// Numbers by chance, the same at every run.
struct Chance(u64);

impl Chance {
    fn below(&mut self, limit: u64) -> u64 {
        self.0 ^= self.0 << 13;
        self.0 ^= self.0 >> 7;
        self.0 ^= self.0 << 17;
        (self.0 >> 20) % limit
    }

    fn is_one_in(&mut self, number: u64) -> bool {
        self.below(number) == 0
    }
}

/// A path of one to three names, of which some have bytes that must be escaped.
fn path(chance: &mut Chance) -> Vec<u8> {
    const NAMES: [&[u8]; 8] = [
        b"a",
        b"b",
        b"c",
        b"d e",
        b"\"",
        b"\\x\n\x1b",
        b"\xff#",
        b"#fourteen.byte",
    ];
    let names = 1 + chance.below(3);
    let one = |_| [b"/", NAMES[chance.below(8) as usize]].concat();
    (0..names).flat_map(one).collect()
}

/// A store with processes and policy by chance, after calls by chance.
fn store(chance: &mut Chance, number_of_calls: u64) -> Tables {
    let mut tables = Tables::empty();
    *tables.file_mut(ROOT) = [DIRECTORY, 0, 0, 0o777, chance.below(3) as u32, 0, 0, 0];
    for process in 0..5 {
        let record = tables.process_mut(process);
        record[PROCESS_USED] = 1;
        record[PROCESS_USER] = chance.below(3) as u32 * 10;
        record[PROCESS_GROUP] = chance.below(3) as u32;
        record[PROCESS_LABEL] = chance.below(3) as u32;
    }
    for (process, file) in label_pairs() {
        let few = process > 2 || file > 2;
        let rights = if few { chance.below(40) } else { 7 };
        tables.set_rights(process, file, if rights > 7 { 0 } else { rights as u8 });
        if chance.is_one_in(20) {
            tables.set_transition(process, file, chance.below(16) as u8);
        }
    }
    for _ in 0..number_of_calls {
        step(&mut tables, chance);
    }
    tables
}

fn step(tables: &mut Tables, chance: &mut Chance) {
    const CALLS: [u8; 16] = [
        calls::CREATE,
        calls::CREATE,
        calls::MAKE_DIRECTORY,
        calls::MAKE_DIRECTORY,
        calls::OPEN,
        calls::OPEN,
        calls::WRITE,
        calls::LINK,
        calls::SYMLINK,
        calls::SYMLINK,
        calls::UNLINK,
        calls::REMOVE_DIRECTORY,
        calls::CLOSE,
        calls::DUPLICATE,
        calls::FORK,
        calls::READ,
    ];
    let (path, mut data) = (path(chance), path(chance));
    let call_number = CALLS[chance.below(16) as usize];
    if call_number == calls::WRITE && chance.is_one_in(4) {
        data = (0..=255).collect();
    }
    let number = match call_number {
        calls::CREATE | calls::MAKE_DIRECTORY => 0o700 + chance.below(64),
        _ => 1 + chance.below(7),
    };
    let request = Request {
        process: chance.below(8) as u8,
        call: call_number,
        descriptor: chance.below(3) as u8,
        number: number as u16,
        path: &path,
        data: &data,
    };
    call(tables, &request, &mut [0; 3]);
}

fn assert_same_again(tables: &Tables) {
    assert!(sound(tables));
    let description = write(tables);
    let again = read(description.as_bytes()).unwrap_or_else(|why| panic!("{why}\n{description}"));
    assert!(again == *tables, "{description}");
    assert_eq!(write(&again), description);
}

#[test]
fn every_sound_store_is_made_again_from_its_description() {
    let mut chance = Chance(0x2545_f491_4f6c_dd1d);
    let mut all = String::new();
    for calls in (0..200).chain([1000; 40]) {
        let store = store(&mut chance, calls);
        assert_same_again(&store);
        all += &write(&store);
    }
    for seen in [
        "\nprocess ",
        "\nrights ",
        "\ntransition ",
        "\ndirectory ",
        "\nfile ",
        "\nlink ",
        "\nsymlink ",
        "\nunnamed ",
        "\nfree ",
        "\nopen ",
        "\ndescriptor ",
        " slot ",
        " entry ",
        " version ",
        " offset ",
        " path \"",
    ] {
        assert!(all.contains(seen), "no store had {seen}");
    }
}

#[test]
fn stores_that_no_call_makes_are_made_again_too() {
    assert_same_again(&Tables::empty());
    assert_same_again(&test_console());
    // Eight directories one in the other, with a file in the last: a path of nine names.
    let mut deep = Tables::empty();
    for slot in 0..9 {
        deep.file_mut(slot)[FILE_KIND] = DIRECTORY;
        deep.file_mut(slot)[FILE_LENGTH] = 1;
        deep.file_mut(slot)[FILE_LINKS] = u32::from(slot != ROOT);
        deep.set_dirent(slot, slot, b"fourteen bytes", slot + 1);
    }
    *deep.file_mut(9) = [PLAIN, 65_535, 65_535, 0o777, 15, 512, 1, u32::MAX];
    deep.block_mut(9).fill(0xab);
    // And a link there, whose text is as long as can be.
    *deep.file_mut(10) = [LINK, 65_535, 0, 0, 15, 64, 1, 1];
    deep.block_mut(10)[..64].fill(b'/');
    deep.set_dirent(8, 3, b"\"", 10);
    deep.file_mut(8)[FILE_LENGTH] = 2;
    deep.file_mut(100)[FILE_VERSION] = 7;
    assert_same_again(&deep);
}

#[test]
fn the_test_console_reads_like_this() {
    assert_eq!(write(&test_console()), include_str!("console.expected"));
}

#[test]
fn comments_order_and_defaults_are_the_writers() {
    let text = "mritvelja description 2\n# a store\n\n\tfile /a  data \"x\" # a file\nprocess 3\nlink \"/b\\x20\" to /a\ndirectory /d entry 7 slot 90\nfile /d/e owner 1 group 2 bits none:write:read,execute";
    let tables = read(text.as_bytes()).unwrap();
    assert!(sound(&tables));
    assert_eq!(tables.file(1), &[PLAIN, 0, 0, 0, 0, 1, 2, 0]);
    assert_eq!(tables.dirent_name(ROOT, 1), b"b ");
    assert_eq!(tables.dirent_slot(ROOT, 7), 90);
    assert_eq!(tables.file(2), &[PLAIN, 1, 2, 0o025, 0, 0, 1, 0]);
    assert_eq!(tables.process(3)[PROCESS_USED], 1);
}
