//! The lines of "The test console", each from a fresh console.

use crate::console::{Console, FILE_BITS, FREE};
use crate::steps::{no, stopped};

#[test]
fn two_reads_the_fare() {
    for path in ["/fares/now", "//fares///now"] {
        let mut console = Console::new();
        assert_eq!(console.open(2, path, 1), Ok(0));
        assert_eq!(console.read(2, 0, 16), Ok(b"2.40\n".to_vec()));
    }
}

#[test]
fn two_may_not_write_and_bits_are_asked_before_labels() {
    let mut console = Console::new();
    assert_eq!(console.open(2, "/fares/now", 2), no(9));
    assert_eq!(console.open(2, "/key", 2), no(9));
}

#[test]
fn labels_bind_user_0_and_the_owner() {
    let mut console = Console::new();
    assert_eq!(console.open(0, "/key", 1), no(10));
    assert_eq!(console.open(1, "/key", 2), Ok(0));
    let mut console = Console::new();
    assert_eq!(console.open(1, "/key", 1), no(10));
}

#[test]
fn one_creates_where_two_may_not() {
    let mut console = Console::new();
    assert_eq!(console.create(2, "/fares/x", 0), no(9));
    assert_eq!(console.create(1, "/fares/x", 0), Ok(4));
}

#[test]
fn an_open_file_outlives_its_name() {
    let mut console = Console::new();
    assert_eq!(console.open(2, "/fares/now", 1), Ok(0));
    assert_eq!(console.unlink(1, "/fares/now"), Ok(0));
    assert_eq!(console.read(2, 0, 16).map(|bytes| bytes.len()), Ok(5));
    assert_eq!(console.create(1, "/fares/now", 0), Ok(4));
    assert_eq!(console.close(2, 0), Ok(0));
    assert_eq!((console.kind(2), console.version(2)), (FREE, 1));
    assert_eq!(console.create(1, "/fares/y", 0), Ok(2));
}

#[test]
fn only_owner_and_user_0_change_bits() {
    let mut console = Console::new();
    assert_eq!(console.change_bits(2, "/fares/now", 6), no(9));
    assert_eq!(console.change_bits(0, "/fares/now", 6), Ok(0));
    assert_eq!(console.file(2)[FILE_BITS], 6);
}

#[test]
fn a_walk_says_where_it_stopped() {
    let mut console = Console::new();
    assert_eq!(console.stat(2, "/fares/now/x"), Err((7, 3)));
    assert_eq!(console.open(2, "/fares/now/x", 1), stopped(7, 3));
    assert_eq!(console.create(2, "/fares/now/x", 0), stopped(7, 3));
    assert_eq!(console.stat(2, "/fares/no"), Err((6, 2)));
    assert_eq!(console.open(2, "/fares/no", 1), stopped(6, 2));
}

#[test]
fn a_gap_is_filled_with_0() {
    let mut console = Console::new();
    assert_eq!(console.create(0, "/fares/x", 7), Ok(4));
    assert_eq!(console.open(0, "/fares/x", 2), Ok(0));
    assert_eq!(console.seek(0, 0, 3), Ok(3));
    assert_eq!(console.write(0, 0, b"A"), Ok(1));
    assert_eq!(console.length(4), 4);
    assert_eq!(console.bytes(4), [0, 0, 0, 65]);
}

#[test]
fn a_file_ends_at_512() {
    let mut console = Console::new();
    assert_eq!(console.open(1, "/fares/now", 2), Ok(0));
    assert_eq!(console.seek(1, 0, 511), Ok(511));
    assert_eq!(console.write(1, 0, b"A"), Ok(1));
    assert_eq!(console.write(1, 0, b"A"), no(14));
    assert_eq!(console.write(1, 0, b""), Ok(0));
}

#[test]
fn names_of_14_and_15_bytes() {
    let mut console = Console::new();
    assert_eq!(console.create(1, "/fares/12345678901234", 0), Ok(4));
    assert_eq!(console.create(1, "/fares/123456789012345", 0), no(3));
}

#[test]
fn paths_of_8_and_9_names() {
    let mut console = Console::new();
    let mut path = String::from("/fares");
    for slot in 4..11 {
        path.push_str("/d");
        assert_eq!(console.make_directory(1, &path, 0o700), Ok(slot));
    }
    assert_eq!(console.stat(1, &path).map(|fields| fields[0]), Ok(2));
    path.push_str("/d");
    assert_eq!(console.make_directory(1, &path, 0o700), no(3));
    assert_eq!(console.stat(1, &path), Err((3, 0)));
}

#[test]
fn seek_512_and_513() {
    let mut console = Console::new();
    assert_eq!(console.open(2, "/fares/now", 1), Ok(0));
    assert_eq!(console.seek(2, 0, 512), Ok(512));
    assert_eq!(console.seek(2, 0, 513), no(3));
}

#[test]
fn a_ninth_descriptor() {
    let mut console = Console::new();
    for descriptor in 0..8 {
        assert_eq!(console.open(2, "/fares/now", 1), Ok(descriptor));
    }
    assert_eq!(console.open(2, "/fares/now", 1), no(13));
    assert_eq!(console.duplicate(2, 0), no(13));
}

#[test]
fn a_slash_after_the_last_name() {
    let mut console = Console::new();
    assert_eq!(console.stat(2, "/fares/"), Err((3, 0)));
    assert_eq!(console.open(2, "/fares/", 1), no(3));
}
