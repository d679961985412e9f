//! What the calls on paths do.

use crate::console::{Console, DIRECTORY, FREE, PLAIN, SLOTS};
use crate::steps::{no, stopped};

#[test]
fn create_makes_an_empty_file_of_the_caller() {
    let mut console = Console::new();
    console.set_label(1, 9);
    console.policy[16 + 9] = 7;
    console.set_version(4, 77);
    assert_eq!(console.create(1, "/fares/x", 0o766), Ok(4));
    assert_eq!(console.file(4), [PLAIN, 10, 1, 0o766, 9, 0, 1, 77]);
    assert_eq!(console.stat(1, "/fares/x"), Ok(console.file(4)));
    assert_eq!(console.file(1), [DIRECTORY, 10, 1, 0o755, 9, 2, 1, 1]);
}

#[test]
fn make_directory_makes_an_empty_directory() {
    let mut console = Console::new();
    assert_eq!(console.make_directory(0, "/d", 0o755), Ok(4));
    assert_eq!(console.file(4), [DIRECTORY, 0, 1, 0o755, 0, 0, 1, 0]);
    assert_eq!(console.create(0, "/d/x", 0), Ok(5));
    assert_eq!(console.file(4), [DIRECTORY, 0, 1, 0o755, 0, 1, 1, 1]);
}

#[test]
fn a_new_name_takes_the_lowest_empty_entry() {
    let mut console = Console::new();
    assert_eq!(console.create(1, "/fares/a", 0), Ok(4));
    assert_eq!(console.create(1, "/fares/b", 0), Ok(5));
    assert_eq!(console.unlink(1, "/fares/now"), Ok(0));
    assert_eq!(console.link(1, "/fares/b", "/fares/c"), Ok(0));
    assert_eq!(
        &console.block(1)[..16],
        b"c\0\0\0\0\0\0\0\0\0\0\0\0\0\x05\0"
    );
    assert_eq!(&console.block(1)[16..18], b"a\0");
    assert_eq!(&console.block(1)[32..34], b"b\0");
    assert_eq!(console.links(5), 2);
}

#[test]
fn unlink_takes_one_name_and_the_last_frees() {
    let mut console = Console::new();
    assert_eq!(console.link(1, "/fares/now", "/fares/x"), Ok(0));
    assert_eq!(console.unlink(1, "/fares/now"), Ok(0));
    assert_eq!(console.file(2), [PLAIN, 10, 1, 0o744, 0, 5, 1, 0]);
    assert_eq!(console.unlink(1, "/fares/x"), Ok(0));
    assert_eq!(console.file(2), [FREE, 0, 0, 0, 0, 0, 0, 1]);
    assert!(console.block(2).iter().all(|&byte| byte == 0));
    assert_eq!(console.file(1), [DIRECTORY, 10, 1, 0o755, 0, 0, 1, 3]);
}

#[test]
fn a_removed_directory_is_freed_at_once() {
    let mut console = Console::new();
    assert_eq!(console.make_directory(1, "/fares/d", 0o755), Ok(4));
    assert_eq!(console.remove_directory(1, "/fares/d"), Ok(0));
    assert_eq!(console.file(4), [FREE, 0, 0, 0, 0, 0, 0, 1]);
    assert_eq!(console.file(1), [DIRECTORY, 10, 1, 0o755, 0, 1, 1, 2]);
    assert_eq!(console.create(1, "/fares/x", 0), Ok(4));
    assert_eq!(console.version(4), 1);
}

/// As many as all slots fill with 15 names in each.
const DIRECTORIES: [&str; 9] = [
    "/fares", "/fares/a", "/fares/b", "/fares/c", "/fares/d", "/fares/e", "/fares/f", "/fares/g",
    "/fares/h",
];

#[test]
fn a_link_needs_a_directory_entry_and_no_slot() {
    let mut console = Console::new();
    for slot in 4..SLOTS {
        let number = slot - 4;
        let made = match DIRECTORIES[1..].get(number) {
            Some(directory) => console.make_directory(1, directory, 0o700),
            None => console.create(1, &format!("{}/{slot}", DIRECTORIES[number / 15]), 0),
        };
        assert_eq!(made, Ok(slot as u32));
    }
    assert_eq!(console.length(1), 16);
    assert_eq!(console.create(1, "/fares/a/x", 0), no(13));
    assert_eq!(console.make_directory(1, "/fares/a/x", 0), no(13));
    assert_eq!(console.link(1, "/fares/now", "/fares/a/x"), Ok(0));
    assert_eq!(console.link(1, "/fares/now", "/fares/a/x"), no(11));
    assert_eq!(console.link(1, "/fares/now", "/fares/y"), no(13));
    assert_eq!(console.links(2), 2);
}

#[test]
fn a_file_has_the_same_bytes_by_each_name() {
    let mut console = Console::new();
    assert_eq!(console.link(1, "/fares/now", "/fares/x"), Ok(0));
    assert_eq!(console.open(1, "/fares/x", 2), Ok(0));
    assert_eq!(console.write(1, 0, b"3"), Ok(1));
    assert_eq!(console.open(2, "/fares/now", 1), Ok(0));
    assert_eq!(console.read(2, 0, 16), Ok(b"3.40\n".to_vec()));
}

#[test]
fn names_are_listed_in_byte_order() {
    let mut console = Console::new();
    for name in ["b", "B", "ba", "a", "\u{7f}"] {
        assert!(console.create(1, &format!("/fares/{name}"), 0).is_ok());
    }
    for (k, name) in ["B", "a", "b", "ba", "now", "\u{7f}"].iter().enumerate() {
        let listed = console.list(2, "/fares", k as u16);
        assert_eq!(listed, Ok(Some(name.as_bytes().to_vec())));
    }
    assert_eq!(console.list(2, "/fares", 6), Ok(None));
    assert_eq!(console.list(2, "/fares", 65_535), Ok(None));
}

#[test]
fn the_root_is_listed_without_searching_it() {
    let mut console = Console::new();
    console.set_bits(0, 0o744);
    assert_eq!(console.list(2, "/", 0), Ok(Some(b"fares".to_vec())));
    assert_eq!(console.list(2, "/", 1), Ok(Some(b"key".to_vec())));
    assert_eq!(console.list(2, "/", 2), Ok(Some(b"rom".to_vec())));
    assert_eq!(console.list(2, "/", 3), Ok(None));
    assert_eq!(console.list(2, "/fares", 0), Err((9, 1)));
    console.set_bits(0, 0o711);
    assert_eq!(console.list(2, "/", 0), Err((9, 0)));
    assert!(console.list(2, "/fares", 0).is_ok());
}

#[test]
fn a_name_of_14_bytes_is_listed_whole() {
    let mut console = Console::new();
    assert_eq!(console.make_directory(1, "/fares/d", 0o755), Ok(4));
    assert_eq!(console.create(1, "/fares/d/12345678901234", 0), Ok(5));
    let name = b"12345678901234".to_vec();
    assert_eq!(console.list(1, "/fares/d", 0), Ok(Some(name)));
}

#[test]
fn change_bits_asks_for_label_write_and_not_the_bits() {
    let mut console = Console::new();
    assert_eq!(console.change_bits(1, "/key", 7), Ok(0));
    assert_eq!(console.file(3), [PLAIN, 10, 1, 7, 3, 4, 1, 0]);
    assert_eq!(console.change_bits(0, "/key", 7), no(10));
    assert_eq!(console.change_bits(2, "/key", 7), no(9));
    assert_eq!(console.change_bits(0, "/", 0), Ok(0));
    assert_eq!(console.file(0), [DIRECTORY, 0, 1, 0, 0, 2, 0, 0]);
    assert_eq!(console.change_bits(1, "/", 0o755), no(9));
}

#[test]
fn stat_asks_for_no_right_on_the_file() {
    let mut console = Console::new();
    let key = [PLAIN, 10, 1, 0o700, 3, 4, 1, 0];
    assert_eq!(console.stat(2, "/key"), Ok(key));
    let root = [DIRECTORY, 0, 1, 0o755, 0, 2, 0, 0];
    assert_eq!(console.stat(2, "/"), Ok(root));
}

#[test]
fn open_wants_the_rights_of_its_mode() {
    for (mode, wanted) in [(1, 4), (2, 2), (3, 6), (4, 2), (10, 2), (11, 6), (12, 2)] {
        for rights in 0..8 {
            let enough = rights & wanted == wanted;
            let mut console = Console::open_policy();
            console.set_bits(2, 0o700 + 0o11 * rights);
            let expected = if enough { Ok(0) } else { no(9) };
            assert_eq!(console.open(2, "/fares/now", mode), expected);

            let mut console = Console::new();
            console.set_bits(3, 0o777);
            console.policy[16 * 2 + 3] = rights as u8;
            let expected = if enough { Ok(0) } else { no(10) };
            assert_eq!(console.open(2, "/key", mode), expected);
        }
    }
}

#[test]
fn open_starts_at_0_and_keeps_the_mode_without_the_8() {
    for (mode, kept) in [(1, 1), (2, 2), (3, 3), (4, 4), (10, 2), (11, 3), (12, 4)] {
        let mut console = Console::new();
        assert_eq!(console.open(1, "/fares/now", mode), Ok(0));
        assert_eq!(console.open_file(0), [2, kept, 0, 1]);
        let length = if mode > 8 { 0 } else { 5 };
        assert_eq!(console.length(2), length);
    }
}

#[test]
fn truncating_leaves_other_open_files_offsets() {
    let mut console = Console::new();
    assert_eq!(console.open(2, "/fares/now", 1), Ok(0));
    assert_eq!(console.read(2, 0, 4).map(|bytes| bytes.len()), Ok(4));
    assert_eq!(console.open(1, "/fares/now", 10), Ok(0));
    assert_eq!(console.open_file(0), [2, 1, 4, 1]);
    assert_eq!(console.read(2, 0, 4), Ok(vec![]));
}

#[test]
fn search_is_asked_by_bits_then_by_label_in_every_directory() {
    let mut console = Console::new();
    console.set_bits(0, 0o744);
    assert_eq!(console.stat(2, "/fares/now"), Err((9, 1)));
    assert_eq!(console.create(2, "/x", 0), stopped(9, 1));
    console.set_bits(0, 0o711);
    assert!(console.stat(2, "/fares/now").is_ok());
    console.set_bits(1, 0o766);
    assert_eq!(console.stat(2, "/fares/none"), Err((9, 2)));
    assert!(console.stat(1, "/fares/now").is_ok());
    console.set_label(1, 3);
    assert_eq!(console.stat(0, "/fares/none"), Err((10, 2)));
    assert_eq!(console.create(0, "/fares/now", 0), stopped(10, 2));
    assert_eq!(console.unlink(2, "/fares/now"), stopped(9, 2));
    assert!(console.stat(0, "/fares").is_ok());
}
