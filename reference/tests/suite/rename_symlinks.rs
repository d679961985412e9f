//! Symbolic links and renames: a link on the way is followed, and one at the
//! last name is renamed itself.

use crate::console::FILE_LENGTH;
use crate::steps::{no, stopped};
use crate::symlink_calls::{linked, LINKS};

const FARES: usize = 1;

#[test]
fn a_link_is_renamed_itself() {
    for (slot, (path, text)) in (4..).zip(LINKS) {
        let mut console = linked();
        assert_eq!(console.rename(0, path, "/x"), Ok(0));
        let mut expected = linked();
        expected.set_dirent(0, slot - 2, b"x", slot as u8);
        expected.set_version(0, 6);
        assert_eq!(console, expected);
        assert_eq!(console.read_symlink(2, "/x", 64), Ok(text.into()));
        assert_eq!(console.stat(2, path), Err((6, 1)));
    }
}

#[test]
fn a_link_moves_itself() {
    for (slot, (path, _)) in (4..).zip(LINKS) {
        let mut console = linked();
        assert_eq!(console.rename(0, path, "/fares/x"), Ok(0));
        let mut expected = linked();
        expected.set_dirent(0, slot - 2, b"", 0);
        expected.set_dirent(FARES, 1, b"x", slot as u8);
        expected.set_field(0, FILE_LENGTH, 6);
        expected.set_field(FARES, FILE_LENGTH, 2);
        expected.set_version(0, 6);
        expected.set_version(FARES, 1);
        assert_eq!(console, expected);
    }
}

/// The same parent is the same slot, by whatever path.
#[test]
fn a_link_on_the_way_leads_to_the_same_parent() {
    for (old, new) in [
        ("/fares/now", "/day/x"),
        ("/day/now", "/fares/x"),
        ("/day/now", "/top/day/x"),
        ("/top/fares/now", "/fares/x"),
    ] {
        let mut console = linked();
        assert_eq!(console.rename(1, old, new), Ok(0));
        let mut expected = linked();
        expected.set_dirent(FARES, 0, b"x", 2);
        expected.set_version(FARES, 1);
        assert_eq!(console, expected);
    }
}

#[test]
fn by_links_too_a_directory_and_a_full_parent_allow_it() {
    let mut console = linked();
    assert_eq!(console.make_directory(1, "/fares/d", 0o755), Ok(9));
    assert_eq!(console.rename(1, "/day/d", "/fares/e"), Ok(0));
    assert_eq!(console.rename(0, "/top/fares/e", "/top/e"), no(8));
    assert_eq!(console.rename(0, "/fares", "/day/x"), no(8)); // into itself
    for slot in 10..24 {
        assert_eq!(console.create(1, &format!("/fares/{slot}"), 0), Ok(slot));
    }
    assert_eq!(console.rename(1, "/fares/now", "/top/day/x"), Ok(0));
    assert_eq!(console.rename(0, "/key", "/day/key"), no(13));
    assert_eq!(console.rename(0, "/fares", "/top/x"), Ok(0));
    assert_eq!(console.stat(0, "/day/now"), Err((6, 1))); // it leads nowhere now
}

#[test]
fn what_is_refused_in_a_text_stops_at_the_links_name() {
    let mut console = linked();
    for new in ["/x", "/fares/now", "/none/x"] {
        assert_eq!(console.rename(0, "/gone/x", new), stopped(6, 1));
        assert_eq!(console.rename(0, "/top/gone/x", new), stopped(6, 2));
        assert_eq!(console.rename(0, "/top/ring/x", new), stopped(15, 2));
        assert_eq!(console.rename(0, "/today/x", new), stopped(7, 2));
    }
    for old in ["/fares", "/fares/now", "/ring"] {
        assert_eq!(console.rename(0, old, "/gone/x"), stopped(6, 1));
        assert_eq!(console.rename(0, old, "/top/gone/x"), stopped(6, 2));
        assert_eq!(console.rename(0, old, "/top/ring/x"), stopped(15, 2));
        assert_eq!(console.rename(0, old, "/top/today/x"), stopped(7, 3));
    }
}
