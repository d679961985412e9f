//! "How consoles have gone wrong": that this one does not.

use crate::console::{Console, FREE, PLAIN};
use crate::steps::no;

#[test]
fn a_slot_is_not_freed_while_a_descriptor_remains() {
    let mut console = Console::new();
    assert_eq!(console.open(1, "/fares/now", 3), Ok(0));
    assert_eq!(console.duplicate(1, 0), Ok(1));
    assert_eq!(console.fork(1), Ok(3));
    assert_eq!(console.unlink(1, "/fares/now"), Ok(0));
    assert_eq!(console.close(1, 0), Ok(0));
    assert_eq!(console.exit(3), Ok(0));
    assert_eq!((console.kind(2), console.links(2)), (PLAIN, 0));
    assert_eq!(console.read(1, 1, 16), Ok(b"2.40\n".to_vec()));
    assert_eq!(console.close(1, 1), Ok(0));
    assert_eq!((console.kind(2), console.version(2)), (FREE, 1));
    assert!(console.block(2).iter().all(|&byte| byte == 0));
}

#[test]
fn another_open_file_keeps_a_nameless_file() {
    let mut console = Console::new();
    assert_eq!(console.open(1, "/fares/now", 1), Ok(0));
    assert_eq!(console.open(2, "/fares/now", 1), Ok(0));
    assert_eq!(console.unlink(0, "/fares/now"), Ok(0));
    assert_eq!(console.close(1, 0), Ok(0));
    assert_eq!(console.kind(2), PLAIN);
    assert_eq!(console.exit(2), Ok(0));
    assert_eq!(console.kind(2), FREE);
}

#[test]
fn user_0_does_not_pass_the_labels() {
    let mut console = Console::new();
    for mode in [1, 2, 3, 4, 10, 11, 12] {
        assert_eq!(console.open(0, "/key", mode), no(10));
    }
    assert_eq!(console.change_bits(0, "/key", 7), no(10));
    assert_eq!(console.execute(0, "/key"), no(10));
}

#[test]
fn truncating_leaves_no_old_bytes() {
    let mut console = Console::new();
    assert_eq!(console.open(1, "/fares/now", 11), Ok(0));
    assert_eq!(console.length(2), 0);
    assert_eq!(console.seek(1, 0, 4), Ok(4));
    assert_eq!(console.write(1, 0, b"A"), Ok(1));
    assert_eq!(console.bytes(2), [0, 0, 0, 0, 65]);
}

#[test]
fn the_offset_is_shared_at_fork() {
    let mut console = Console::new();
    assert_eq!(console.open(2, "/fares/now", 1), Ok(0));
    assert_eq!(console.fork(2), Ok(3));
    assert_eq!(console.read(2, 0, 2), Ok(b"2.".to_vec()));
    assert_eq!(console.read(3, 0, 16), Ok(b"40\n".to_vec()));
    assert_eq!(console.read(2, 0, 16), Ok(vec![]));
}

#[test]
fn nothing_is_truncated_without_a_free_descriptor() {
    let mut console = Console::new();
    for descriptor in 0..8 {
        assert_eq!(console.open(1, "/fares/now", 2), Ok(descriptor));
    }
    assert_eq!(console.open(1, "/fares/now", 10), no(13));
    assert_eq!(console.bytes(2), b"2.40\n");
    assert_eq!(console.version(2), 0);
}
