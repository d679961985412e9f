//! Labels over /rom and its files: theirs is 0, and they bind user 0 too.

use crate::console::Console;
use crate::steps::{no, stopped};

/// Three prompts below a root of label 9, which all may use freely, with these
/// rights over label 0 for all.
fn with_rights_over_0(rights: u8) -> Console {
    let mut console = Console::talking();
    console.set_label(0, 9);
    for label in 0..3 {
        console.policy[16 * label + 9] = 7;
        console.policy[16 * label] = rights;
    }
    console
}

#[test]
fn stat_of_the_directory_asks_nothing_of_it() {
    for rights in 0..8 {
        for process in 0..3 {
            let mut console = with_rights_over_0(rights);
            assert!(console.stat(process, "/rom").is_ok());
        }
    }
}

#[test]
fn listing_asks_to_read() {
    for rights in 0..8 {
        for process in 0..3 {
            let listed = with_rights_over_0(rights).list(process, "/rom", 0);
            let expected = if rights & 4 == 4 {
                Ok(Some(b"00".to_vec()))
            } else {
                Err((10, 0))
            };
            assert_eq!(listed, expected, "rights {rights}");
        }
    }
}

#[test]
fn a_name_in_it_asks_to_search() {
    for rights in 0..8 {
        for process in 0..3 {
            let mut console = with_rights_over_0(rights);
            let searched = rights & 1 == 1;
            assert_eq!(console.stat(process, "/rom/00").is_ok(), searched);
            if !searched {
                assert_eq!(console.stat(process, "/rom/00"), Err((10, 2)));
                assert_eq!(console.stat(process, "/rom/03"), Err((10, 2)));
                assert_eq!(console.open(process, "/rom/00", 2), stopped(10, 2));
                assert_eq!(console.create(process, "/rom/00", 0), stopped(10, 2));
                assert_eq!(console.create(process, "/rom/x", 0), stopped(10, 2));
                assert_eq!(console.unlink(process, "/rom/00"), stopped(10, 2));
                assert_eq!(console.link(process, "/rom/00", "/x"), stopped(10, 2));
                assert_eq!(console.rename(process, "/rom/00", "/x"), stopped(10, 2));
                assert_eq!(console.rename(process, "/key", "/rom/x"), stopped(10, 2));
                assert_eq!(console.execute(process, "/rom/00"), stopped(10, 2));
            }
        }
    }
}

#[test]
fn opening_a_prompt_asks_to_read() {
    for rights in [1, 3, 5, 7] {
        for process in 0..3 {
            let mut console = with_rights_over_0(rights);
            let expected = if rights & 4 == 4 { Ok(0) } else { no(10) };
            assert_eq!(console.open(process, "/rom/00", 1), expected);
            // Writing is 9, whatever the label may do.
            assert_eq!(console.open(process, "/rom/00", 2), no(9));
            assert_eq!(console.open(process, "/rom/00", 3), no(9));
        }
    }
}

/// What asks nothing of labels before its bits is 9 with no rights at all.
#[test]
fn changes_are_9_and_not_10() {
    for process in 0..3 {
        let mut console = with_rights_over_0(0);
        assert_eq!(console.change_bits(process, "/rom", 0), no(9));
        assert_eq!(console.remove_directory(process, "/rom"), no(9));
        assert_eq!(console.rename(process, "/rom", "/x"), no(9));
        assert_eq!(console.create(process, "/rom", 0), no(11));
        assert_eq!(console.open(process, "/rom", 1), no(8));
        assert_eq!(console.unlink(process, "/rom"), no(8));
    }
}

/// The bits give each class the same, so the caller's user and group make no
/// difference.
#[test]
fn all_classes_may_read_and_search() {
    for (process, group) in [(0, 0), (1, 0), (2, 0), (2, 5)] {
        let mut console = Console::talking();
        console.set_group(process, group);
        let process = process as u8;
        assert_eq!(console.list(process, "/rom", 0), Ok(Some(b"00".to_vec())));
        assert_eq!(console.open(process, "/rom/00", 1), Ok(0));
        assert_eq!(console.open(process, "/rom/00", 2), no(9));
        assert_eq!(console.execute(process, "/rom/00"), no(9));
    }
}

/// As with other files, what is open is refused after the label moved.
#[test]
fn reading_asks_the_present_label() {
    let mut console = Console::talking();
    console.set_bits(2, 0o755);
    console.policy[256 + 16 * 2] = 8; // from label 2 by a program of label 0
    assert_eq!(console.open(2, "/rom/00", 1), Ok(0));
    assert_eq!(console.execute(2, "/fares/now"), Ok(0));
    assert_eq!(console.open(2, "/rom/00", 1), stopped(10, 1));
    for size in [0, 4] {
        assert_eq!(console.read(2, 0, size), Err((10, 0)));
        assert_eq!(console.borrow(2, 0, size as u32), Err(10));
    }
    assert_eq!(console.write(2, 0, b"x"), no(5));
    assert_eq!(console.open_file(0), [128, 1, 0, 1]);
}
