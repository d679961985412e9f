//! A defect for each clause.

use super::*;
use mritvelja::layout::*;
use mritvelja::test_console;

type Spoil = fn(&mut Tables);

/// The test console with /fares/now open: entry 0, held by descriptor 0 of process 2.
pub fn console_with_open_file() -> Tables {
    let mut tables = test_console();
    *tables.open_file_mut(0) = [2, 1, 0, 1];
    tables.process_mut(2)[PROCESS_DESCRIPTOR] = 1;
    tables
}

/// The test console with /today, a link to /fares/now in slot 4, at an entry that leaves room for [`dig`].
pub fn console_with_link() -> Tables {
    let mut tables = console_with_open_file();
    *tables.file_mut(4) = [LINK, 0, 1, 0, 0, 0, 1, 0];
    set_text(&mut tables, b"/fares/now");
    tables.set_dirent(ROOT, 3, b"today", 4);
    tables.file_mut(ROOT)[FILE_LENGTH] = 3;
    tables
}

/// The test console beside three prompts, of which process 2 has prompt 1 open.
pub fn console_with_prompts() -> Tables {
    let mut tables = console_with_open_file();
    tables.rom = b"\x05\0hello\0\0\x01\0x".to_vec();
    tables.open_file_mut(0)[OPEN_SLOT] = ROM_FIRST as u32 + 1;
    tables
}

fn set_text(tables: &mut Tables, text: &[u8]) {
    tables.block_mut(4).fill(0);
    tables.block_mut(4)[..text.len()].copy_from_slice(text);
    tables.file_mut(4)[FILE_LENGTH] = text.len() as u32;
}

/// Directories one below the other, each named `d`: slot 10 in /, 11 in it and so on.
pub fn dig(tables: &mut Tables, depth: usize) {
    for level in 0..depth {
        let (slot, parent) = (10 + level, if level == 0 { ROOT } else { 9 + level });
        *tables.file_mut(slot) = [DIRECTORY, 0, 0, 0o755, 0, 0, 1, 0];
        let entry = if level == 0 { 2 } else { 0 };
        tables.set_dirent(parent, entry, b"d", slot);
        tables.file_mut(parent)[FILE_LENGTH] += 1;
    }
}

#[test]
fn sound_stores_have_no_defect() {
    let mut deep = test_console();
    dig(&mut deep, 8);
    let mut root = console_with_link();
    set_text(&mut root, b"//");
    let consoles = [
        test_console(),
        console_with_open_file(),
        console_with_link(),
        console_with_prompts(),
    ];
    for tables in consoles.into_iter().chain([deep, root]) {
        assert!(mritvelja::sound(&tables));
        assert_eq!(first_defect(&tables), None);
    }
}

fn assert_defects(defects: &[(usize, &str, Spoil)]) {
    assert_defects_of(console_with_open_file, defects);
}

fn assert_defects_of(console: fn() -> Tables, defects: &[(usize, &str, Spoil)]) {
    for &(clause, place, spoil) in defects {
        let mut tables = console();
        spoil(&mut tables);
        let defect = first_defect(&tables).expect(place);
        assert_eq!(defect.clause, CLAUSES[clause - 1].0, "{defect}");
        assert!(defect.place.contains(place), "{defect}");
        assert!(!mritvelja::sound(&tables), "{defect}");
    }
}

#[test]
fn fields_of_files_out_of_range() {
    assert_defects(&[
        (1, "slot 9: kind is 4, not 0 to 3", |t| {
            t.file_mut(9)[FILE_KIND] = 4
        }),
        (1, "slot 1: owner is 65536", |t| {
            t.file_mut(1)[FILE_OWNER] = 65_536
        }),
        (1, "slot 1: group is 65536, not 0 to 65535", |t| {
            t.file_mut(1)[FILE_GROUP] = 65_536
        }),
        (1, "slot 2: bits is 512, not 0 to 511", |t| {
            t.file_mut(2)[FILE_BITS] = 512
        }),
        (1, "slot 3: label is 16", |t| t.file_mut(3)[FILE_LABEL] = 16),
        (1, "open file 0: slot is 144, not 0 to 143", |t| {
            t.open_file_mut(0)[OPEN_SLOT] = (ROM_FIRST + PROMPTS) as u32
        }),
        (1, "open file 0: mode is 5, not 1 to 4", |t| {
            t.open_file_mut(0)[OPEN_MODE] = 5
        }),
        (1, "open file 0: offset is 513", |t| {
            t.open_file_mut(0)[OPEN_OFFSET] = 513
        }),
    ]);
}

#[test]
fn fields_of_processes_and_policy_out_of_range() {
    assert_defects(&[
        (1, "process 5: in-use mark is 2", |t| {
            t.process_mut(5)[PROCESS_USED] = 2
        }),
        (1, "process 1: user is 65536", |t| {
            t.process_mut(1)[PROCESS_USER] = 65_536
        }),
        (1, "process 1: group is 65536, not 0 to 65535", |t| {
            t.process_mut(1)[PROCESS_GROUP] = 65_536
        }),
        (1, "process 1: label is 16", |t| {
            t.process_mut(1)[PROCESS_LABEL] = 16
        }),
        (1, "process 1, descriptor 7: its word is 33", |t| {
            t.descriptors_mut(1)[7] = 33
        }),
        (
            1,
            "process label 2 over file label 15: the cell is 8",
            |t| t.set_rights(2, 15, 8),
        ),
        (
            1,
            "process label 1 by program label 2: the cell is 16",
            |t| t.policy[RIGHTS_SIZE + 18] = 16,
        ),
    ]);
}

#[test]
fn the_root_and_the_tree() {
    assert_defects(&[
        (2, "slot 0: kind is 1", |t| t.file_mut(0)[FILE_KIND] = PLAIN),
        (2, "slot 0: links is 1", |t| t.file_mut(0)[FILE_LINKS] = 1),
        (
            3,
            "slot 1: a directory; the directory entries that name it are 2",
            |t| t.set_dirent(0, 2, b"too", 1),
        ),
        (
            3,
            "slot 9: a directory; the directory entries that name it are 0",
            |t| t.file_mut(9)[FILE_KIND] = DIRECTORY,
        ),
        (3, "slot 18: a directory 9 names deep", |t| dig(t, 9)),
        (4, "slot 8: a directory from which no way", |t| {
            *t.file_mut(8) = [DIRECTORY, 0, 0, 0o755, 0, 1, 1, 0];
            t.set_dirent(8, 0, b"self", 8);
        }),
    ]);
}

#[test]
fn the_places() {
    assert_defects(&[
        (5, "slot 1, entry 0, name \"\\xff/\": it has a slash", |t| {
            t.set_dirent(1, 0, b"\xff/", 2)
        }),
        (5, "name \"..\": it is no name", |t| {
            t.set_dirent(1, 0, b"..", 2)
        }),
        (5, "name \"\": it has no bytes", |t| {
            t.set_dirent(1, 0, b"", 2)
        }),
        (5, "entry 1, name \"fares\": entry 0 has it too", |t| {
            t.set_dirent(0, 1, b"fares", 3)
        }),
        (6, "slot 1, entry 1: it names slot 0", |t| {
            t.set_dirent(1, 1, b"x", 0)
        }),
        (6, "slot 1, entry 1: it names slot 128", |t| {
            t.set_dirent(1, 1, b"x", SLOTS)
        }),
        (6, "slot 1, entry 1: it names slot 4, which is free", |t| {
            t.set_dirent(1, 1, b"x", 4)
        }),
        (
            7,
            "slot 2: links is 2, but the directory entries counted are 1",
            |t| t.file_mut(2)[FILE_LINKS] = 2,
        ),
        (
            7,
            "slot 4: links is 1, but the directory entries counted are 0",
            |t| t.file_mut(4)[FILE_LINKS] = 1,
        ),
    ]);
}

#[test]
fn files_and_open_files() {
    assert_defects(&[
        (8, "slot 3: a plain file of length 513", |t| {
            t.file_mut(3)[FILE_LENGTH] = 513
        }),
        (
            8,
            "slot 1: a directory of length 2, but its names counted are 1",
            |t| t.file_mut(1)[FILE_LENGTH] = 2,
        ),
        (
            9,
            "slot 7: a plain file that no directory entry names",
            |t| t.file_mut(7)[FILE_KIND] = PLAIN,
        ),
        (10, "open file 0: slot 1 is no plain file", |t| {
            t.open_file_mut(0)[OPEN_SLOT] = 1
        }),
        (
            11,
            "references is 2, but the descriptors counted are 1",
            |t| t.open_file_mut(0)[OPEN_REFERENCES] = 2,
        ),
        (
            11,
            "open file 3: it is not free, and references is 0",
            |t| t.open_file_mut(3)[..2].fill(2),
        ),
        (
            11,
            "open file 4: references is 0, but the descriptors counted are 1",
            |t| t.descriptors_mut(0)[7] = 5,
        ),
    ]);
}

#[test]
fn the_zero_bytes() {
    assert_defects(&[
        (12, "slot 4: a free record", |t| {
            t.file_mut(4)[FILE_LENGTH] = 1
        }),
        (12, "slot 4: a free record", |t| {
            t.file_mut(4)[FILE_GROUP] = 1
        }),
        (12, "slot 4: a free slot whose byte 511", |t| {
            t.block_mut(4)[511] = 1
        }),
        (12, "slot 2: a plain file of length 5 whose byte 5", |t| {
            t.block_mut(2)[5] = 1
        }),
        (12, "slot 1, entry 0: a byte after the name's end", |t| {
            t.dirent_mut(1, 0)[13] = 1
        }),
        (12, "slot 1, entry 0: the byte after its slot", |t| {
            t.dirent_mut(1, 0)[15] = 1
        }),
        (12, "slot 1, entry 9: an empty one", |t| {
            t.dirent_mut(1, 9)[15] = 1
        }),
        (12, "slot 1: a directory whose byte 256", |t| {
            t.block_mut(1)[256] = 1
        }),
        (12, "process 7: not in use, and not all 0", |t| {
            t.process_mut(7)[PROCESS_USER] = 1
        }),
        (12, "process 3: not in use, and not all 0", |t| {
            t.process_mut(3)[PROCESS_GROUP] = 1
        }),
    ]);
}

#[test]
fn the_links() {
    assert_defects_of(
        console_with_link,
        &[
            (7, "slot 4: links is 2", |t| t.file_mut(4)[FILE_LINKS] = 2),
            (10, "open file 0: slot 4 is no plain file", |t| {
                t.open_file_mut(0)[OPEN_SLOT] = 4
            }),
            (
                13,
                "slot 4: a link; the directory entries that name it are 2",
                |t| {
                    t.set_dirent(ROOT, 9, b"too", 4);
                    t.file_mut(ROOT)[FILE_LENGTH] = 4;
                    t.file_mut(4)[FILE_LINKS] = 2;
                },
            ),
            (
                13,
                "slot 4: a link; the directory entries that name it are 0",
                |t| {
                    t.dirent_mut(ROOT, 3).fill(0);
                    t.file_mut(ROOT)[FILE_LENGTH] = 2;
                    t.file_mut(4)[FILE_LINKS] = 0;
                },
            ),
            (13, "slot 4: a link whose bits are 1, not 0", |t| {
                t.file_mut(4)[FILE_BITS] = 1
            }),
            (13, "slot 4: a link of length 10 whose byte 10", |t| {
                t.block_mut(4)[10] = b'x'
            }),
            (13, "slot 4: a link of length 10 whose byte 511", |t| {
                t.block_mut(4)[511] = 1
            }),
        ],
    );
}

#[test]
fn the_texts_of_links() {
    assert_defects_of(
        console_with_link,
        &[
            (13, "slot 4: a link of length 0, not 1 to 64", |t| {
                set_text(t, b"")
            }),
            (13, "slot 4: a link of length 65, not 1 to 64", |t| {
                set_text(t, &[b'/'; 65])
            }),
            (13, "slot 4: a link of length 4294967295, not", |t| {
                t.file_mut(4)[FILE_LENGTH] = u32::MAX
            }),
            (
                13,
                "slot 4: a link whose text \"x\" is not a valid path: it does not begin with a slash",
                |t| set_text(t, b"x"),
            ),
            (
                13,
                "text \"/a\\x1b/\" is not a valid path: it has a slash after its last name",
                |t| set_text(t, b"/a\x1b/"),
            ),
            (13, "it has more than 8 names", |t| {
                set_text(t, b"/1/2/3/4/5/6/7/8/9")
            }),
            (13, "\"fifteen-letters\" is no name", |t| {
                set_text(t, b"/fifteen-letters")
            }),
            (13, "\"..\" is no name", |t| set_text(t, b"/fares/../key")),
            // A record that is longer than its text takes the zeros after it for text.
            (13, "\"now\\x00\" is no name", |t| {
                t.file_mut(4)[FILE_LENGTH] = 11
            }),
        ],
    );
}

#[test]
fn the_factory_part() {
    assert_defects_of(
        console_with_prompts,
        &[
            (1, "open file 0: offset is 513", |t| {
                t.open_file_mut(0)[OPEN_OFFSET] = 513
            }),
            (
                14,
                "prompt 3, which begins at byte 12: expected a length of 2 bytes",
                |t| t.rom.push(0),
            ),
            (14, "prompt 15 ends at byte 38", |t| t.rom.extend([0; 28])),
            (
                15,
                "open file 0: slot 131 is prompt 3, but the factory part has 3 prompts",
                |t| t.open_file_mut(0)[OPEN_SLOT] = 131,
            ),
            (15, "slot 129 is prompt 1, in mode 3, not 1", |t| {
                t.open_file_mut(0)[OPEN_MODE] = 3
            }),
            (
                15,
                "slot 129 is prompt 1, but no factory part is given, or an empty one",
                |t| t.rom.clear(),
            ),
            (16, "directory in slot 0, entry 1: it has that name", |t| {
                t.set_dirent(ROOT, 1, b"rom", 3)
            }),
            // An empty part reserves the name too.
            (16, "directory in slot 0, entry 0: it has that name", |t| {
                t.rom.clear();
                t.open_file_mut(0)[OPEN_SLOT] = 2;
                t.set_dirent(ROOT, 0, b"rom", 1)
            }),
        ],
    );
}
