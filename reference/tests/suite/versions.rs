//! When a version goes up, and when it does not.

use crate::console::Console;
use crate::steps::no;

/// The versions of the first six slots.
fn versions(console: &Console) -> [u32; 6] {
    std::array::from_fn(|slot| console.version(slot))
}

#[test]
fn a_write_raises_it_once() {
    let mut console = Console::new();
    assert_eq!(console.open(1, "/fares/now", 3), Ok(0));
    assert_eq!(versions(&console), [0; 6]);
    assert_eq!(console.write(1, 0, b"two"), Ok(3));
    assert_eq!(versions(&console), [0, 0, 1, 0, 0, 0]);
    assert_eq!(console.write(1, 0, b""), Ok(0));
    assert_eq!(console.seek(1, 0, 512), Ok(512));
    assert_eq!(console.write(1, 0, b"x"), no(14));
    assert_eq!(versions(&console), [0, 0, 1, 0, 0, 0]);
}

#[test]
fn writing_the_same_bytes_counts() {
    let mut console = Console::new();
    assert_eq!(console.open(1, "/fares/now", 3), Ok(0));
    assert_eq!(console.write(1, 0, b"2.40\n"), Ok(5));
    assert_eq!(console.version(2), 1);
}

#[test]
fn truncating_raises_it_if_there_was_something_to_truncate() {
    let mut console = Console::new();
    assert_eq!(console.open(1, "/fares/now", 10), Ok(0));
    assert_eq!(versions(&console), [0, 0, 1, 0, 0, 0]);
    assert_eq!(console.open(1, "/fares/now", 12), Ok(1));
    assert_eq!(versions(&console), [0, 0, 1, 0, 0, 0]);
}

#[test]
fn a_new_name_raises_its_directory() {
    let mut console = Console::new();
    assert_eq!(console.create(1, "/fares/x", 0), Ok(4));
    assert_eq!(versions(&console), [0, 1, 0, 0, 0, 0]);
    assert_eq!(console.make_directory(1, "/fares/d", 0o755), Ok(5));
    assert_eq!(versions(&console), [0, 2, 0, 0, 0, 0]);
    assert_eq!(console.link(1, "/fares/now", "/fares/d/y"), Ok(0));
    assert_eq!(versions(&console), [0, 2, 0, 0, 0, 1]);
}

#[test]
fn a_lost_name_raises_its_directory_and_freeing_the_file() {
    let mut console = Console::new();
    assert_eq!(console.link(1, "/fares/now", "/fares/x"), Ok(0));
    assert_eq!(console.unlink(1, "/fares/x"), Ok(0));
    assert_eq!(versions(&console), [0, 2, 0, 0, 0, 0]);
    assert_eq!(console.unlink(1, "/fares/now"), Ok(0));
    assert_eq!(versions(&console), [0, 3, 1, 0, 0, 0]);
    assert_eq!(console.remove_directory(0, "/fares"), Ok(0));
    assert_eq!(versions(&console), [1, 4, 1, 0, 0, 0]);
}

#[test]
fn freeing_by_close_raises_only_the_file() {
    let mut console = Console::new();
    assert_eq!(console.open(1, "/fares/now", 1), Ok(0));
    assert_eq!(console.unlink(1, "/fares/now"), Ok(0));
    assert_eq!(versions(&console), [0, 1, 0, 0, 0, 0]);
    assert_eq!(console.close(1, 0), Ok(0));
    assert_eq!(versions(&console), [0, 1, 1, 0, 0, 0]);
}

#[test]
fn other_calls_raise_nothing() {
    let mut console = Console::new();
    assert_eq!(console.change_bits(1, "/fares/now", 0o777), Ok(0));
    assert_eq!(console.open(2, "/fares/now", 3), no(10));
    assert_eq!(console.open(1, "/fares/now", 3), Ok(0));
    assert!(console.read(1, 0, 16).is_ok());
    assert!(console.list(1, "/", 0).is_ok());
    assert!(console.stat(1, "/").is_ok());
    assert_eq!(console.duplicate(1, 0), Ok(1));
    assert_eq!(console.fork(1), Ok(3));
    assert_eq!(console.execute(1, "/fares/now"), Ok(0));
    assert_eq!(console.close(1, 0), Ok(0));
    assert_eq!(console.exit(1), Ok(0));
    assert_eq!(versions(&console), [0; 6]);
}

#[test]
fn the_last_version_is_followed_by_0() {
    let last = u32::MAX;
    let mut console = Console::new();
    console.set_version(1, last);
    console.set_version(2, last);
    console.set_version(4, last);
    assert_eq!(console.open(1, "/fares/now", 2), Ok(0));
    assert_eq!(console.write(1, 0, b"x"), Ok(1));
    assert_eq!(console.create(1, "/fares/x", 0), Ok(4));
    assert_eq!(versions(&console), [0, 0, 0, 0, last, 0]);
    assert_eq!(console.unlink(1, "/fares/x"), Ok(0));
    assert_eq!(versions(&console), [0, 1, 0, 0, 0, 0]);
    console.set_version(2, last);
    assert_eq!(console.open(1, "/fares/now", 10), Ok(1));
    assert_eq!(versions(&console), [0, 1, 0, 0, 0, 0]);
}
