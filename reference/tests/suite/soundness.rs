//! Each clause of "Sound": one defect makes a sound store unsound.

use crate::console::{
    Console, DIRECTORY, FILE_BITS, FILE_GROUP, FILE_KIND, FILE_LABEL, FILE_LENGTH, FILE_LINKS,
    FILE_OWNER, FILE_VERSION, FILE_WIDTH, LAST_SLOT, PLAIN, PROCESS_DESCRIPTOR, PROCESS_GROUP,
    PROCESS_LABEL, PROCESS_USED, PROCESS_USER, SLOTS,
};

/// A sound console with something of everything: /fares/d/x beside the rest,
/// descriptors 0 and 1 of process 1 on open file 0, and a nameless open slot 6.
fn busy() -> Console {
    let mut console = Console::new();
    assert_eq!(console.make_directory(1, "/fares/d", 0o755), Ok(4));
    assert_eq!(console.create(1, "/fares/d/x", 0o755), Ok(5));
    assert_eq!(console.create(1, "/fares/gone", 0o755), Ok(6));
    assert_eq!(console.open(1, "/fares/now", 3), Ok(0));
    assert_eq!(console.duplicate(1, 0), Ok(1));
    assert_eq!(console.open(1, "/fares/gone", 2), Ok(2));
    assert_eq!(console.unlink(1, "/fares/gone"), Ok(0));
    assert!(console.is_sound());
    console
}

const fn byte(slot: usize, dirent: usize, at: usize) -> usize {
    512 * slot + 16 * dirent + at
}

/// Each change makes the busy console unsound, taken alone.
fn unsound(changes: &[fn(&mut Console)]) {
    for (number, change) in changes.iter().enumerate() {
        let mut console = busy();
        let before = console.clone();
        change(&mut console);
        assert_ne!(console, before, "change {number} changes nothing");
        assert!(!console.is_sound(), "change {number}");
    }
}

/// Each change leaves the busy console sound, taken alone.
fn still_sound(changes: &[fn(&mut Console)]) {
    for (number, change) in changes.iter().enumerate() {
        let mut console = busy();
        change(&mut console);
        assert!(console.is_sound(), "change {number}");
    }
}

#[test]
fn consoles_are_sound() {
    assert!(Console::empty().is_sound());
    assert!(Console::new().is_sound());
    assert!(busy().is_sound());
}

#[test]
fn a_file_has_its_fields_in_range() {
    unsound(&[
        |console| console.set_field(2, FILE_KIND, 4),
        |console| console.set_field(2, FILE_KIND, u32::MAX),
        |console| console.set_field(2, FILE_OWNER, 65_536),
        |console| console.set_field(1, FILE_OWNER, 65_536),
        |console| console.set_field(2, FILE_GROUP, 65_536),
        |console| console.set_field(1, FILE_GROUP, 65_536),
        |console| console.set_field(2, FILE_BITS, 512),
        |console| console.set_field(1, FILE_BITS, 512),
        |console| console.set_field(0, FILE_LABEL, 16),
        |console| console.set_field(2, FILE_LABEL, 16),
    ]);
    still_sound(&[
        |console| console.set_field(2, FILE_OWNER, 65_535),
        |console| console.set_field(2, FILE_GROUP, 65_535),
        |console| console.set_field(2, FILE_BITS, 511),
        |console| console.set_field(2, FILE_LABEL, 15),
        |console| console.set_field(2, FILE_VERSION, u32::MAX),
    ]);
}

#[test]
fn a_free_record_is_zero_but_for_its_version() {
    unsound(&[
        |console| console.set_field(LAST_SLOT, FILE_OWNER, 1),
        |console| console.set_field(LAST_SLOT, FILE_GROUP, 1),
        |console| console.set_field(LAST_SLOT, FILE_BITS, 1),
        |console| console.set_field(LAST_SLOT, FILE_LABEL, 1),
        |console| console.set_field(LAST_SLOT, FILE_LENGTH, 1),
        |console| console.set_field(LAST_SLOT, FILE_LINKS, 1),
    ]);
    still_sound(&[|console| console.set_field(LAST_SLOT, FILE_VERSION, 1)]);
}

#[test]
fn an_open_file_has_its_fields_in_range() {
    unsound(&[
        |console| console.open_files[0] = SLOTS as u32,
        |console| console.open_files[0] = u32::MAX,
        |console| console.open_files[1] = 0,
        |console| console.open_files[1] = 5,
        |console| console.open_files[1] = 11,
        |console| console.open_files[2] = 513,
    ]);
    still_sound(&[
        |console| console.open_files[1] = 4,
        |console| console.open_files[2] = 512,
    ]);
}

#[test]
fn a_free_open_file_is_all_zero() {
    unsound(&[
        |console| console.open_files[4 * 31] = 2,
        |console| console.open_files[4 * 31 + 1] = 1,
        |console| console.open_files[4 * 31 + 2] = 1,
        |console| console.open_files[4 * 31 + 3] = 1,
    ]);
}

#[test]
fn a_process_has_its_fields_in_range() {
    unsound(&[
        |console| console.set_process_field(0, PROCESS_USED, 2),
        |console| console.set_process_field(0, PROCESS_USER, 65_536),
        |console| console.set_process_field(0, PROCESS_GROUP, 65_536),
        |console| console.set_process_field(0, PROCESS_LABEL, 16),
        |console| console.set_process_field(1, PROCESS_DESCRIPTOR, 33),
        |console| console.set_process_field(1, PROCESS_DESCRIPTOR + 7, u32::MAX),
    ]);
    still_sound(&[
        |console| console.set_process_field(0, PROCESS_USER, 65_535),
        |console| console.set_process_field(0, PROCESS_GROUP, 65_535),
        |console| console.set_process_field(0, PROCESS_LABEL, 15),
    ]);
}

#[test]
fn a_free_process_is_all_zero() {
    unsound(&[
        |console| console.set_process_field(7, PROCESS_USER, 1),
        |console| console.set_process_field(7, PROCESS_GROUP, 1),
        |console| console.set_process_field(7, PROCESS_LABEL, 1),
        |console| {
            console.set_process_field(7, PROCESS_DESCRIPTOR, 1);
            console.open_files[3] = 3;
        },
        |console| console.set_process_field(1, PROCESS_USED, 0),
    ]);
    still_sound(&[|console| console.set_process_field(7, PROCESS_USED, 1)]);
}

#[test]
fn the_policy_is_in_range() {
    unsound(&[
        |console| console.policy[0] = 8,
        |console| console.policy[255] = 255,
        |console| console.policy[256] = 16,
        |console| console.policy[511] = 254,
    ]);
    still_sound(&[
        |console| console.policy[255] = 7,
        |console| console.policy[256] = 15,
        |console| console.policy[511] = 0,
    ]);
}

#[test]
fn the_root_is_a_directory_with_no_name() {
    unsound(&[
        |console| console.set_field(0, FILE_LINKS, 1),
        |console| {
            console.set_dirent(4, 1, b"root", 0);
            console.set_field(4, FILE_LENGTH, 2);
        },
        |console| {
            console.set_dirent(4, 1, b"root", 0);
            console.set_field(4, FILE_LENGTH, 2);
            console.set_field(0, FILE_LINKS, 1);
        },
    ]);
    let mut console = Console::empty();
    console.set_file(0, [PLAIN, 0, 1, 0o755, 0, 0, 0, 0]);
    assert!(!console.is_sound());
    console.set_file(0, [0; FILE_WIDTH]);
    assert!(!console.is_sound());
}

#[test]
fn every_other_directory_is_named_exactly_once() {
    unsound(&[
        |console| {
            console.set_dirent(0, 2, b"again", 4);
            console.set_field(0, FILE_LENGTH, 3);
            console.set_field(4, FILE_LINKS, 2);
        },
        |console| {
            console.set_dirent(1, 3, b"again", 4);
            console.set_field(1, FILE_LENGTH, 3);
            console.set_field(4, FILE_LINKS, 2);
        },
        |console| console.set_file(20, [DIRECTORY, 0, 1, 0o700, 0, 0, 0, 0]),
    ]);
    // A plain file may have several names.
    still_sound(&[|console| {
        console.set_dirent(0, 2, b"again", 2);
        console.set_field(0, FILE_LENGTH, 3);
        console.set_field(2, FILE_LINKS, 2);
    }]);
}

/// A chain of directories, `depth` of them below the root.
fn chain(depth: usize) -> Console {
    let mut console = Console::empty();
    for slot in 1..=depth {
        console.set_dirent(slot - 1, 0, b"d", slot as u8);
        console.set_field(slot - 1, FILE_LENGTH, 1);
        console.set_file(slot, [DIRECTORY, 0, 1, 0o700, 0, 0, 1, 0]);
    }
    console
}

#[test]
fn a_directory_is_at_most_8_names_deep() {
    for depth in 0..=8 {
        assert!(chain(depth).is_sound());
    }
    for depth in 9..=LAST_SLOT {
        assert!(!chain(depth).is_sound());
    }
}

#[test]
fn a_plain_file_may_lie_in_the_deepest_directory() {
    let mut console = chain(8);
    console.set_dirent(8, 0, b"x", 9);
    console.set_field(8, FILE_LENGTH, 1);
    console.set_file(9, [PLAIN, 0, 1, 0o700, 0, 0, 1, 0]);
    assert!(console.is_sound());
}

#[test]
fn every_directory_is_reached_from_the_root() {
    unsound(&[
        |console| {
            // One that names itself.
            console.set_file(20, [DIRECTORY, 0, 1, 0o700, 0, 1, 1, 0]);
            console.set_dirent(20, 0, b"me", 20);
        },
        |console| {
            // Two that name each other.
            console.set_file(20, [DIRECTORY, 0, 1, 0o700, 0, 1, 1, 0]);
            console.set_file(21, [DIRECTORY, 0, 1, 0o700, 0, 1, 1, 0]);
            console.set_dirent(20, 0, b"you", 21);
            console.set_dirent(21, 0, b"you", 20);
        },
    ]);
}

#[test]
fn names_are_valid() {
    unsound(&[
        |console| console.set_dirent(1, 0, b".", 2),
        |console| console.set_dirent(1, 0, b"..", 2),
        |console| console.set_dirent(1, 0, b"n/w", 2),
        |console| console.set_dirent(1, 0, b"/", 2),
        |console| console.set_dirent(1, 0, b"", 2),
        |console| console.set_dirent(1, 0, b"n\0w", 2),
        |console| console.set_dirent(1, 0, b"\0now", 2),
    ]);
    still_sound(&[
        |console| console.set_dirent(1, 0, b"...", 2),
        |console| console.set_dirent(1, 0, b"12345678901234", 2),
        |console| console.set_dirent(1, 0, b"\xff\x01", 2),
    ]);
}

#[test]
fn names_are_different_within_a_directory() {
    unsound(&[
        |console| console.set_dirent(0, 1, b"fares", 3),
        |console| {
            console.set_dirent(0, 15, b"key", 2);
            console.set_field(0, FILE_LENGTH, 3);
            console.set_field(2, FILE_LINKS, 2);
        },
    ]);
    still_sound(&[|console| console.set_dirent(4, 0, b"now", 5)]);
}

#[test]
fn each_directory_entry_names_a_slot_in_use() {
    unsound(&[
        |console| console.contents[byte(0, 1, 14)] = 20,
        |console| console.contents[byte(0, 1, 14)] = SLOTS as u8,
        |console| console.contents[byte(0, 1, 14)] = 255,
        |console| console.contents[byte(0, 1, 14)] = 0,
        |console| {
            console.set_dirent(0, 2, b"x", 20);
            console.set_field(0, FILE_LENGTH, 3);
        },
    ]);
}

#[test]
fn links_equal_the_directory_entries_counted() {
    unsound(&[
        |console| console.set_field(2, FILE_LINKS, 2),
        |console| console.set_field(2, FILE_LINKS, 0),
        |console| console.set_field(4, FILE_LINKS, 0),
        |console| console.set_field(4, FILE_LINKS, 2),
        |console| console.set_field(6, FILE_LINKS, 1),
        |console| console.contents[byte(0, 1, 14)] = 2,
    ]);
}

#[test]
fn lengths_are_right() {
    unsound(&[
        |console| console.set_field(2, FILE_LENGTH, 513),
        |console| console.set_field(2, FILE_LENGTH, u32::MAX),
        |console| console.set_field(1, FILE_LENGTH, 1),
        |console| console.set_field(1, FILE_LENGTH, 3),
        |console| console.set_field(4, FILE_LENGTH, 0),
    ]);
    still_sound(&[|console| console.set_field(2, FILE_LENGTH, 512)]);
}

#[test]
fn each_plain_file_is_named_or_open() {
    unsound(&[
        |console| console.set_file(20, [PLAIN, 0, 1, 0o700, 0, 0, 0, 0]),
        |console| {
            // The open file of the nameless one, and its descriptor, taken away.
            console.open_files[4..8].fill(0);
            console.set_process_field(1, PROCESS_DESCRIPTOR + 2, 0);
        },
    ]);
}

#[test]
fn open_files_are_only_plain_ones() {
    unsound(&[
        |console| console.open_files[0] = 0,
        |console| console.open_files[0] = 1,
        |console| console.open_files[0] = 20,
    ]);
    still_sound(&[|console| console.open_files[0] = 3]);
}

#[test]
fn references_equal_the_descriptors_counted() {
    unsound(&[
        |console| console.open_files[3] = 1,
        |console| console.open_files[3] = 3,
        |console| console.open_files[3] = 0,
        |console| console.set_process_field(0, PROCESS_DESCRIPTOR, 1),
        |console| console.set_process_field(1, PROCESS_DESCRIPTOR, 0),
        |console| console.set_process_field(0, PROCESS_DESCRIPTOR, 32),
        |console| console.open_files[4 * 31..].copy_from_slice(&[2, 1, 0, 0]),
        |console| console.open_files[4 * 31..].copy_from_slice(&[2, 1, 0, 1]),
    ]);
    still_sound(&[|console| {
        console.open_files[4 * 31..].copy_from_slice(&[2, 1, 0, 1]);
        console.set_process_field(0, PROCESS_DESCRIPTOR, 32);
    }]);
}

#[test]
fn the_zero_bytes_are_zero() {
    unsound(&[
        |console| console.contents[512 * 2 + 5] = 1, // past a plain file's length
        |console| console.contents[512 * 2 + 511] = 1,
        |console| console.contents[512 * 6] = 1, // in an empty file
        |console| console.contents[512 * LAST_SLOT] = 1, // in a free slot
        |console| console.contents[512 * LAST_SLOT + 511] = 1,
        |console| console.contents[byte(0, 0, 13)] = 1, // in a name's padding
        |console| console.contents[byte(0, 0, 15)] = 1, // after an entry's slot
        |console| console.contents[byte(0, 5, 0)] = 1,  // in an empty entry
        |console| console.contents[byte(0, 5, 14)] = 2,
        |console| console.contents[byte(0, 5, 15)] = 1,
        |console| console.contents[byte(0, 16, 0)] = 1, // after the last entry
        |console| console.contents[byte(0, 31, 15)] = 1,
    ]);
    still_sound(&[|console| console.contents[512 * 2 + 4] = 0]);
}
