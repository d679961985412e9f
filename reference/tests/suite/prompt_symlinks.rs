//! Symbolic links that lead to /rom and into it.

use crate::console::{Console, FILE_KIND, SYMLINK};
use crate::steps::{no, stopped};

/// Three prompts, and links in slots 4 to 8.
fn linked() -> Console {
    let mut console = Console::talking();
    for (path, text) in [
        ("/voice", "/rom"),
        ("/stop", "/voice/00"),
        ("/gone", "/rom/03"),
        ("/top", "/"),
        ("/wrong", "/rom/00/x"),
    ] {
        assert!(console.symlink(0, path, text).is_ok());
    }
    console
}

#[test]
fn they_may_be_made_and_their_texts_read() {
    let mut console = linked();
    let text = console.read_symlink(2, "/gone", 64);
    assert_eq!(text, Ok(b"/rom/03".to_vec()));
    for path in ["/voice", "/stop", "/gone", "/wrong"] {
        assert_eq!(console.stat(2, path).unwrap()[FILE_KIND], SYMLINK);
    }
}

#[test]
fn they_are_followed_to_a_prompt() {
    let mut console = linked();
    assert_eq!(console.open(2, "/stop", 1), Ok(0));
    assert_eq!(console.open_file(0), [128, 1, 0, 1]);
    assert_eq!(console.read(2, 0, 4), Ok(b"next".to_vec()));
    assert_eq!(console.borrow(2, 0, 99), Ok(b" stop".to_vec()));
    assert_eq!(console.open(2, "/voice/02", 1), Ok(1));
    assert_eq!(console.open_file(1), [130, 1, 0, 1]);
    assert_eq!(console.open(0, "/stop", 3), no(9));
    assert_eq!(console.execute(0, "/stop"), no(9));
    assert_eq!(console.change_bits(0, "/stop", 0), no(9));
}

#[test]
fn they_are_followed_to_the_directory() {
    let mut console = linked();
    assert_eq!(console.list(2, "/voice", 2), Ok(Some(b"02".to_vec())));
    assert_eq!(console.list(2, "/voice", 3), Ok(None));
    let record = console.stat(2, "/rom/02");
    assert_eq!(console.stat(2, "/voice/02"), record);
    assert_eq!(console.open(0, "/voice", 1), no(8));
    assert_eq!(console.create(0, "/voice/x", 0), no(9));
    assert_eq!(console.create(0, "/voice/00", 0), no(11));
    assert_eq!(console.unlink(0, "/voice/00"), no(9));
    assert_eq!(console.change_bits(0, "/voice", 0), no(9));
    assert_eq!(console.link(0, "/voice/00", "/x"), no(9));
    assert_eq!(console.link(0, "/fares/now", "/voice/x"), no(9));
    assert_eq!(console.remove_directory(0, "/voice"), no(8));
}

#[test]
fn the_root_reached_by_a_link_has_rom_too() {
    let mut console = linked();
    let record = console.stat(2, "/rom");
    assert_eq!(console.stat(2, "/top/rom"), record);
    assert!(console.stat(2, "/top/rom/00").is_ok());
    assert_eq!(console.list(2, "/top", 3), Ok(Some(b"rom".to_vec())));
    assert_eq!(console.create(0, "/top/rom", 0), no(11));
    assert_eq!(console.remove_directory(0, "/top/rom"), no(9));
    assert_eq!(console.unlink(0, "/top/rom/00"), no(9));
    assert_eq!(console.stat(0, "/top/rom/03"), Err((6, 3)));
}

#[test]
fn what_is_refused_in_a_text_stops_at_the_links_name() {
    let mut console = linked();
    assert_eq!(console.open(0, "/gone", 1), stopped(6, 1));
    assert_eq!(console.open(0, "/top/gone", 1), stopped(6, 2));
    assert_eq!(console.open(0, "/wrong", 1), stopped(7, 1));
    assert_eq!(console.open(0, "/stop/x", 1), stopped(7, 2));
    assert_eq!(console.stat(0, "/voice/03"), Err((6, 2)));
    console.set_label(0, 9); // all labels may search the root
    for label in 0..3 {
        console.policy[16 * label + 9] = 7;
        console.policy[16 * label] = 6;
    }
    assert_eq!(console.open(0, "/stop", 1), stopped(10, 1));
    assert_eq!(console.stat(0, "/voice/00"), Err((10, 2)));
}

#[test]
fn unlink_takes_the_link_away() {
    let mut console = linked();
    for path in ["/stop", "/voice", "/gone"] {
        assert_eq!(console.unlink(0, path), Ok(0));
        assert_eq!(console.stat(0, path), Err((6, 1)));
    }
    assert!(console.stat(0, "/rom/00").is_ok());
}

/// A walk may follow eight links, and /rom is none.
#[test]
fn rom_is_no_follow() {
    let mut console = Console::talking();
    assert_eq!(console.symlink(0, "/0", "/rom/00"), Ok(4));
    for slot in 5..12 {
        let (path, text) = (format!("/{}", slot - 4), format!("/{}", slot - 5));
        assert_eq!(console.symlink(0, &path, &text), Ok(slot));
    }
    assert_eq!(console.open(2, "/7", 1), Ok(0));
    assert_eq!(console.symlink(0, "/8", "/7"), Ok(12));
    assert_eq!(console.open(2, "/8", 1), stopped(15, 1));
}
