//! R-8 where an open file is shared, where a label comes back, and what is not
//! asked again.

use crate::console::Console;
use crate::stale_rights::MOVED;
use crate::steps::no;

#[test]
fn the_label_asked_is_the_callers_own() {
    for moved in [2, 3] {
        let mut console = Console::moving(1);
        assert_eq!(console.open(2, "/fares/now", 1), Ok(0));
        assert_eq!(console.fork(2), Ok(3));
        assert_eq!(console.read(2, 0, 1), Ok(b"2".to_vec()));
        console.execute_now(moved, MOVED);
        let other = 5 - moved;
        console.assert_unread(moved, 0);
        assert_eq!(console.read(other, 0, 1), Ok(b".".to_vec()));
        console.assert_unread(moved, 0);
        assert_eq!(console.borrow(other, 0, 2), Ok(b"40".to_vec()));
        // The one that may not read moves the offset of the one that may.
        assert_eq!(console.seek(moved, 0, 0), Ok(0));
        assert_eq!(console.read(other, 0, 9), Ok(b"2.40\n".to_vec()));
        assert_eq!(console.close(moved, 0), Ok(0));
        assert_eq!(console.open_file(0), [2, 1, 5, 1]);
    }
}

#[test]
fn a_shared_file_is_written_by_the_one_that_may() {
    for mode in [2, 3, 4] {
        let mut console = Console::moving(5);
        assert_eq!(console.open(1, "/fares/now", mode), Ok(0));
        assert_eq!(console.fork(1), Ok(3));
        console.execute_now(3, MOVED);
        assert_eq!(console.seek(3, 0, 5), Ok(5));
        assert_eq!(console.write(3, 0, b"x"), no(10));
        assert_eq!(console.write(1, 0, b"y"), Ok(1));
        assert_eq!(console.write(3, 0, b""), no(10));
        assert_eq!(console.bytes(2), b"2.40\ny");
    }
}

/// A child made after the move has the label, one made before it has not.
#[test]
fn children_have_the_label_of_their_fork() {
    let mut console = Console::moving(1);
    assert_eq!(console.open(2, "/fares/now", 1), Ok(0));
    assert_eq!(console.fork(2), Ok(3));
    console.execute_now(2, MOVED);
    assert_eq!(console.fork(2), Ok(4));
    assert_eq!(console.exit(2), Ok(0));
    console.assert_unread(4, 0);
    assert_eq!(console.read(3, 0, 9), Ok(b"2.40\n".to_vec()));
    assert_eq!(console.open_file(0), [2, 1, 5, 2]);
}

#[test]
fn a_label_that_comes_back_reads_on() {
    for path in ["/fares/now", "/rom/02"] {
        let mut console = Console::moving(1);
        assert_eq!(console.open(2, path, 1), Ok(0));
        let whole = console.borrow(2, 0, 512).unwrap();
        assert_eq!(console.seek(2, 0, 0), Ok(0));
        assert_eq!(console.read(2, 0, 2), Ok(whole[..2].to_vec()));
        console.execute_now(2, MOVED);
        console.assert_unread(2, 0);
        console.execute_now(2, 2);
        assert_eq!(console.read(2, 0, 2), Ok(whole[2..4].to_vec()));
        assert_eq!(console.borrow(2, 0, 9), Ok(whole[4..].to_vec()));
    }
}

/// From label 1, which may write, through one that may not, to 2, which may
/// only read.
#[test]
fn a_label_that_comes_back_has_its_own_rights() {
    let mut console = Console::moving(1);
    assert_eq!(console.open(1, "/fares/now", 3), Ok(0));
    assert_eq!(console.write(1, 0, b"3"), Ok(1));
    console.execute_now(1, MOVED);
    assert_eq!(console.write(1, 0, b"3"), no(10));
    console.assert_unread(1, 0);
    console.execute_now(1, 2);
    assert_eq!(console.write(1, 0, b"3"), no(10));
    assert_eq!(console.read(1, 0, 9), Ok(b".40\n".to_vec()));
}

/// The other way round: what a label may do more is not given to an open file
/// that is not open for it.
#[test]
fn more_rights_open_no_other_direction() {
    let mut console = Console::moving(7);
    assert_eq!(console.open(2, "/fares/now", 1), Ok(0));
    console.execute_now(2, MOVED);
    assert_eq!(console.write(2, 0, b"x"), no(5));
    assert_eq!(console.read(2, 0, 9), Ok(b"2.40\n".to_vec()));
}

#[test]
fn bits_are_not_asked_again() {
    let mut console = Console::moving(7);
    assert_eq!(console.open(2, "/fares/now", 1), Ok(0));
    assert_eq!(console.open(1, "/fares/now", 3), Ok(0));
    assert_eq!(console.change_bits(1, "/fares/now", 0), Ok(0));
    for process in [1, 2] {
        assert_eq!(console.open(process, "/fares/now", 1), no(9));
        assert_eq!(console.read(process, 0, 2), Ok(b"2.".to_vec()));
        assert_eq!(console.borrow(process, 0, 1), Ok(b"4".to_vec()));
    }
    assert_eq!(console.write(1, 0, b"5"), Ok(1));
    assert_eq!(console.write(1, 0, b""), Ok(0));
    assert_eq!(console.bytes(2), b"2.45\n");
}

/// Nor is the walk: the labels and bits of the directories, or whether the file
/// still has a name.
#[test]
fn the_walk_is_not_made_again() {
    let mut console = Console::moving(4);
    assert_eq!(console.open(2, "/fares/now", 1), Ok(0));
    console.execute_now(2, MOVED);
    assert_eq!(console.unlink(1, "/fares/now"), Ok(0));
    assert_eq!(console.stat(2, "/fares"), Err((10, 1)));
    assert_eq!(console.read(2, 0, 9), Ok(b"2.40\n".to_vec()));
}

/// A file that has lost its name is asked as others are, by the label that its
/// record still has.
#[test]
fn a_file_without_a_name_keeps_its_label() {
    let mut console = Console::moving(3);
    assert_eq!(console.open(1, "/fares/now", 3), Ok(0));
    assert_eq!(console.unlink(1, "/fares/now"), Ok(0));
    assert_eq!(console.create(1, "/fares/go", 0o777), Ok(4));
    assert_eq!(console.execute(1, "/fares/go"), Ok(0));
    console.assert_unread(1, 0);
    assert_eq!(console.write(1, 0, b"3"), Ok(1));
    assert_eq!(console.bytes(2), b"3.40\n");
}
