//! What "Sound" says of symbolic links: one defect makes a store unsound.

use crate::console::{
    Console, DIRECTORY, FILE_BITS, FILE_GROUP, FILE_KIND, FILE_LABEL, FILE_LENGTH, FILE_LINKS,
    FILE_OWNER, FILE_VERSION, PROCESS_DESCRIPTOR, SYMLINK,
};

/// The slot of the link.
const TODAY: usize = 4;

/// The console with /fares/today, which leads to /fares/now.
fn linked() -> Console {
    let mut console = Console::new();
    assert_eq!(console.symlink(1, "/fares/today", "/fares/now"), Ok(4));
    console
}

fn set_text(console: &mut Console, text: &[u8]) {
    console.contents[512 * TODAY..][..512].fill(0);
    console.set_bytes(TODAY, text);
    console.set_field(TODAY, FILE_LENGTH, text.len() as u32);
}

fn unsound(changes: &[fn(&mut Console)]) {
    for (number, change) in changes.iter().enumerate() {
        let mut console = linked();
        change(&mut console);
        assert_ne!(console, linked(), "change {number} changes nothing");
        assert!(!console.is_sound(), "change {number}");
    }
}

fn still_sound(changes: &[fn(&mut Console)]) {
    for (number, change) in changes.iter().enumerate() {
        let mut console = linked();
        change(&mut console);
        assert!(console.is_sound(), "change {number}");
    }
}

#[test]
fn its_fields_are_in_range() {
    unsound(&[
        |console| console.set_field(TODAY, FILE_OWNER, 65_536),
        |console| console.set_field(TODAY, FILE_GROUP, 65_536),
        |console| console.set_field(TODAY, FILE_LABEL, 16),
        |console| console.set_field(TODAY, FILE_KIND, 4),
        |console| console.set_field(TODAY, FILE_KIND, 0),
        |console| console.set_field(TODAY, FILE_KIND, DIRECTORY),
    ]);
    still_sound(&[
        |console| console.set_field(TODAY, FILE_OWNER, 65_535),
        |console| console.set_field(TODAY, FILE_GROUP, 65_535),
        |console| console.set_field(TODAY, FILE_LABEL, 15),
        |console| console.set_field(TODAY, FILE_VERSION, u32::MAX),
    ]);
}

#[test]
fn its_bits_are_0() {
    unsound(&[
        |console| console.set_field(TODAY, FILE_BITS, 1),
        |console| console.set_field(TODAY, FILE_BITS, 0o444),
        |console| console.set_field(TODAY, FILE_BITS, 0o777),
        |console| console.set_field(TODAY, FILE_BITS, 512),
    ]);
}

#[test]
fn it_is_named_once() {
    unsound(&[
        |console| console.set_field(TODAY, FILE_LINKS, 0),
        |console| console.set_field(TODAY, FILE_LINKS, 2),
        |console| {
            // Named nowhere.
            console.set_dirent(1, 1, b"", 0);
            console.set_field(1, FILE_LENGTH, 1);
            console.set_field(TODAY, FILE_LINKS, 0);
        },
        |console| {
            // Named twice in one directory.
            console.set_dirent(1, 2, b"again", 4);
            console.set_field(1, FILE_LENGTH, 3);
            console.set_field(TODAY, FILE_LINKS, 2);
        },
        |console| {
            // Named twice in two directories.
            console.set_dirent(0, 2, b"today", 4);
            console.set_field(0, FILE_LENGTH, 3);
            console.set_field(TODAY, FILE_LINKS, 2);
        },
    ]);
}

#[test]
fn its_text_is_a_well_formed_path() {
    unsound(&[
        |console| set_text(console, b""),
        |console| set_text(console, b"fares"),
        |console| set_text(console, b"/fares/"),
        |console| set_text(console, b"/fares/."),
        |console| set_text(console, b"/../fares"),
        |console| set_text(console, b"/fa\0es"),
        |console| set_text(console, b"/fares\0"),
        |console| set_text(console, b"\0"),
        |console| set_text(console, b"/123456789012345"),
        |console| set_text(console, b"/1/2/3/4/5/6/7/8/9"),
        |console| set_text(console, &[b'/'; 65]),
        |console| set_text(console, &[b'/'; 512]),
    ]);
    still_sound(&[
        |console| set_text(console, b"/"),
        |console| set_text(console, &[b'/'; 64]),
        |console| set_text(console, b"/fares/today"),
        |console| set_text(console, b"/none/at/all"),
        |console| set_text(console, b"//1/2/3/4/5//6/7/8"),
        |console| set_text(console, b"/\xff\n\x01/12345678901234"),
    ]);
}

#[test]
fn its_text_has_the_records_length_and_then_0() {
    unsound(&[
        |console| console.set_field(TODAY, FILE_LENGTH, 9),
        |console| console.set_field(TODAY, FILE_LENGTH, 11),
        |console| console.set_field(TODAY, FILE_LENGTH, 0),
        |console| console.set_field(TODAY, FILE_LENGTH, 512),
        |console| console.set_field(TODAY, FILE_LENGTH, 513),
        |console| console.set_field(TODAY, FILE_LENGTH, u32::MAX),
        |console| console.contents[512 * TODAY + 10] = b'x',
        |console| console.contents[512 * TODAY + 64] = 1,
        |console| console.contents[512 * TODAY + 511] = 1,
    ]);
}

#[test]
fn it_is_never_open() {
    unsound(&[
        |console| {
            console.open_files[..4].copy_from_slice(&[TODAY as u32, 1, 0, 1]);
            console.set_process_field(1, PROCESS_DESCRIPTOR, 1);
        },
        |console| {
            // Nor may being open stand for its name.
            console.set_dirent(1, 1, b"", 0);
            console.set_field(1, FILE_LENGTH, 1);
            console.set_field(TODAY, FILE_LINKS, 0);
            console.open_files[..4].copy_from_slice(&[TODAY as u32, 1, 0, 1]);
            console.set_process_field(1, PROCESS_DESCRIPTOR, 1);
        },
    ]);
}

#[test]
fn the_root_is_none() {
    let mut console = Console::empty();
    console.set_file(0, [SYMLINK, 0, 1, 0, 0, 1, 0, 0]);
    console.set_bytes(0, b"/");
    assert!(!console.is_sound());
}

#[test]
fn it_may_lie_9_names_deep() {
    let mut console = Console::empty();
    for slot in 1..=8 {
        console.set_dirent(slot - 1, 0, b"d", slot as u8);
        console.set_field(slot - 1, FILE_LENGTH, 1);
        console.set_file(slot, [DIRECTORY, 0, 1, 0o700, 0, 0, 1, 0]);
    }
    console.set_dirent(8, 0, b"l", 9);
    console.set_field(8, FILE_LENGTH, 1);
    console.set_file(9, [SYMLINK, 0, 1, 0, 0, 1, 1, 0]);
    console.set_bytes(9, b"/");
    assert!(console.is_sound());
}

#[test]
fn a_name_below_it_is_none_of_a_directory() {
    // A link's bytes are not counted as directory entries.
    let mut console = linked();
    console.set_bytes(TODAY, b"/fares/nowwwww\x02");
    console.set_field(TODAY, FILE_LENGTH, 15);
    assert!(console.is_sound());
    assert_eq!(console.links(2), 1);
}
