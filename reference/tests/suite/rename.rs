//! what a rename changes, and that it changes nothing else.

use crate::console::{request, Console, DIRECTORY, FILE_LENGTH, PLAIN, SLOTS};
use crate::steps::{no, outcome};
use reference::Request;

const ROOT: usize = 0;
const FARES: usize = 1;

impl Console {
    /// A directory's length and version.
    fn measure(&self, directory: usize) -> (usize, u32) {
        (self.length(directory), self.version(directory))
    }

    /// The name and the slot in an entry of a directory.
    fn entry(&self, directory: usize, dirent: usize) -> (&str, u8) {
        let dirent = &self.block(directory)[16 * dirent..][..16];
        let name = std::str::from_utf8(&dirent[..14]).unwrap();
        (name.trim_end_matches('\0'), dirent[14])
    }
}

#[test]
fn within_one_parent_the_name_and_the_parents_version_change() {
    let mut console = Console::new();
    assert_eq!(console.rename(1, "/fares/now", "/fares/old"), Ok(0));
    let mut expected = Console::new();
    expected.set_dirent(FARES, 0, b"old", 2);
    expected.set_version(FARES, 1);
    assert_eq!(console, expected);
}

#[test]
fn between_parents_both_lengths_and_versions_change() {
    let mut console = Console::new();
    assert_eq!(console.rename(0, "/fares/now", "/now"), Ok(0));
    let mut expected = Console::new();
    expected.set_dirent(FARES, 0, b"", 0);
    expected.set_dirent(ROOT, 2, b"now", 2);
    expected.set_field(FARES, FILE_LENGTH, 0);
    expected.set_field(ROOT, FILE_LENGTH, 3);
    expected.set_version(FARES, 1);
    expected.set_version(ROOT, 1);
    assert_eq!(console, expected);
    assert_eq!(console.rename(0, "/now", "/fares/now"), Ok(0));
    assert_eq!(console.measure(ROOT), (2, 2));
    assert_eq!(console.measure(FARES), (1, 2));
    assert_eq!(console.contents, Console::new().contents);
}

#[test]
fn the_last_version_is_followed_by_0() {
    let mut console = Console::new();
    for slot in 0..3 {
        console.set_version(slot, u32::MAX);
    }
    assert_eq!(console.rename(1, "/fares/now", "/fares/x"), Ok(0));
    assert_eq!([0, 1, 2].map(|slot| console.version(slot)), [!0, 0, !0]);
    assert_eq!(console.rename(0, "/fares/x", "/x"), Ok(0));
    assert_eq!([0, 1, 2].map(|slot| console.version(slot)), [0, 1, !0]);
}

#[test]
fn within_one_parent_the_entry_is_kept() {
    let mut console = Console::new();
    for (slot, name) in (4..).zip(["a", "b", "c"]) {
        assert_eq!(console.create(1, &format!("/fares/{name}"), 0), Ok(slot));
    }
    assert_eq!(console.unlink(1, "/fares/now"), Ok(0)); // entry 0 is empty
    assert_eq!(console.rename(1, "/fares/b", "/fares/z"), Ok(0));
    let entries = [0, 1, 2, 3].map(|dirent| console.entry(FARES, dirent));
    assert_eq!(entries, [("", 0), ("a", 4), ("z", 5), ("c", 6)]);
    assert_eq!(console.measure(FARES), (3, 5));
}

#[test]
fn between_parents_it_is_the_lowest_empty_one() {
    let mut console = Console::new();
    assert_eq!(console.create(0, "/a", 0), Ok(4));
    assert_eq!(console.unlink(0, "/key"), Ok(0)); // entry 1 is empty
    assert_eq!(console.rename(0, "/fares/now", "/b"), Ok(0));
    let entries = [0, 1, 2, 3].map(|dirent| console.entry(ROOT, dirent));
    assert_eq!(entries, [("fares", 1), ("b", 2), ("a", 4), ("", 0)]);
}

#[test]
fn a_shorter_name_leaves_nothing_of_a_longer_one() {
    let mut console = Console::new();
    for name in ["12345678901234", "x", "\u{e9}", "...", "1234567890123"] {
        let old = console.entry(FARES, 0).0.to_owned();
        let [old, new] = [&old, name].map(|name| format!("/fares/{name}"));
        assert_eq!(console.rename(1, &old, &new), Ok(0), "{name}");
        assert_eq!(console.entry(FARES, 0), (name, 2));
    }
}

#[test]
fn a_directory_keeps_its_names() {
    let mut console = Console::new();
    assert_eq!(console.rename(0, "/fares", "/prices"), Ok(0));
    let mut expected = Console::new();
    expected.set_dirent(ROOT, 0, b"prices", 1);
    expected.set_version(ROOT, 1);
    assert_eq!(console, expected);
    assert_eq!(console.stat(2, "/prices/now"), Ok(console.file(2)));
    assert_eq!(console.stat(2, "/fares/now"), Err((6, 1)));
}

/// Nothing is asked of the file itself: not its bits, owner or label.
#[test]
fn the_file_is_not_asked() {
    let mut console = Console::new();
    assert_eq!(console.open(0, "/key", 1), no(10));
    assert_eq!(console.rename(0, "/key", "/lock"), Ok(0));
    assert_eq!(console.rename(0, "/lock", "/fares/key"), Ok(0));
    assert_eq!(console.file(3), Console::new().file(3));
    console.set_bits(FARES, 0o777);
    console.set_bits(2, 0);
    console.policy[16 * 2] = 7;
    assert_eq!(console.rename(2, "/fares/now", "/fares/x"), Ok(0));
}

/// A new file would take its parent's label; one that moves has its own.
#[test]
fn the_label_stays() {
    let mut console = Console::open_policy();
    console.set_label(ROOT, 9);
    assert_eq!(console.rename(0, "/fares/now", "/now"), Ok(0));
    assert_eq!(console.file(2), Console::new().file(2));
    assert_eq!(console.rename(0, "/key", "/fares/key"), Ok(0));
    assert_eq!(console.file(3), Console::new().file(3));
}

/// "Fares must swap in": the new one is written under another name first.
#[test]
fn fares_swap_in() {
    let mut console = Console::new();
    assert_eq!(console.create(1, "/fares/next", 0o744), Ok(4));
    assert_eq!(console.open(1, "/fares/next", 2), Ok(0));
    assert_eq!(console.write(1, 0, b"2.60\n"), Ok(5));
    assert_eq!(console.rename(1, "/fares/next", "/fares/now"), no(11));
    assert_eq!(console.rename(1, "/fares/now", "/fares/last"), Ok(0));
    assert_eq!(console.rename(1, "/fares/next", "/fares/now"), Ok(0));
    assert_eq!(console.open(2, "/fares/now", 1), Ok(0));
    assert_eq!(console.read(2, 0, 16), Ok(b"2.60\n".to_vec()));
    assert_eq!(console.list(2, "/fares", 0), Ok(Some(b"last".to_vec())));
    assert_eq!(console.list(2, "/fares", 2), Ok(None));
}

#[test]
fn what_is_open_stays_open() {
    for new in ["/fares/x", "/x"] {
        let mut console = Console::new();
        assert_eq!(console.open(2, "/fares/now", 1), Ok(0));
        assert_eq!(console.open(1, "/fares/now", 4), Ok(0));
        assert_eq!(console.read(2, 0, 2), Ok(b"2.".to_vec()));
        let before = console.clone();
        assert_eq!(console.rename(0, "/fares/now", new), Ok(0));
        assert_eq!(console.open_files, before.open_files);
        assert_eq!(console.processes, before.processes);

        assert_eq!(console.write(1, 0, b"!"), Ok(1));
        assert_eq!(console.read(2, 0, 16), Ok(b"40\n!".to_vec()));
        assert_eq!(console.unlink(0, new), Ok(0));
        assert_eq!(console.borrow(2, 0, 9), Ok(vec![]));
        assert_eq!(console.exit(1), Ok(0));
        assert_eq!((console.kind(2), console.links(2)), (PLAIN, 0));
    }
}

#[test]
fn other_names_of_the_file_stay() {
    let mut console = Console::new();
    assert_eq!(console.link(1, "/fares/now", "/fares/x"), Ok(0));
    assert_eq!(console.rename(1, "/fares/now", "/fares/x"), no(11)); // POSIX differs
    assert_eq!(console.rename(1, "/fares/now", "/fares/y"), Ok(0));
    assert_eq!(console.rename(0, "/fares/x", "/x"), Ok(0));
    assert_eq!(console.file(2), [PLAIN, 10, 1, 0o744, 0, 5, 2, 0]);
    assert_eq!(console.stat(2, "/fares/y"), Ok(console.file(2)));
    assert_eq!(console.stat(2, "/x"), Ok(console.file(2)));
}

#[test]
fn a_full_directory_renames_and_takes_nothing_in() {
    let mut console = Console::new();
    for slot in 4..19 {
        assert_eq!(console.create(1, &format!("/fares/{slot}"), 0), Ok(slot));
    }
    assert_eq!(console.rename(1, "/fares/18", "/fares/last"), Ok(0));
    assert_eq!(console.entry(FARES, 15), ("last", 18));
    assert_eq!(console.measure(FARES), (16, 16));
    assert_eq!(console.rename(0, "/key", "/fares/key"), no(13));
    assert_eq!(console.rename(0, "/fares/7", "/7"), Ok(0));
    assert_eq!(console.rename(0, "/key", "/fares/key"), Ok(0));
    assert_eq!(console.entry(FARES, 4), ("key", 3));
}

#[test]
fn no_slot_is_needed() {
    let mut console = Console::new();
    for slot in 4..SLOTS {
        let number = slot - 4;
        let made = match number {
            0..8 => console.make_directory(1, &format!("/fares/{number}"), 0o700),
            _ => console.create(1, &format!("/fares/{}/{slot}", (number - 8) / 15), 0),
        };
        assert_eq!(made, Ok(slot as u32));
    }
    assert_eq!(console.create(1, "/fares/x", 0), no(13));
    assert_eq!(console.rename(1, "/fares/0/12", "/fares/x"), Ok(0));
    assert_eq!(console.rename(1, "/fares/7", "/fares/y"), Ok(0));
}

#[test]
fn directories_keep_their_depth_and_files_may_lie_9_deep() {
    let mut console = Console::open_policy();
    for depth in 1..=8 {
        let made = console.make_directory(0, &"/d".repeat(depth), 0o777);
        assert_eq!(made, Ok(3 + depth as u32));
    }
    assert_eq!(console.symlink(0, "/deep", &"/d".repeat(7)), Ok(12));
    assert_eq!(console.rename(0, "/deep/d", "/deep/e"), Ok(0));
    assert_eq!(console.rename(0, &"/d".repeat(7), "/d/e"), no(8));
    assert_eq!(console.rename(0, "/fares/now", "/deep/e/now"), Ok(0));
    assert_eq!(console.rename(0, "/deep", "/deep/e/l"), Ok(0));
    assert_eq!(console.file(11), [DIRECTORY, 0, 1, 0o777, 0, 2, 1, 2]);
}

#[test]
fn parts_not_used_are_not_looked_at() {
    let mut console = Console::new();
    let odd = Request {
        descriptor: 200,
        number: 60_000,
        ..request(1, 20)
    };
    let answer = console.call(odd, b"//fares//now", b"//fares///x", &mut [1; 9]);
    assert_eq!(outcome(&answer), Ok(0));
    assert_eq!(console.entry(FARES, 0), ("x", 2));
}
