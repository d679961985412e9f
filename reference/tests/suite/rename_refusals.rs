//! what a rename is refused for, and in which order.

use crate::console::{request, Console};
use crate::steps::{no, outcome, stopped, Outcome};

const A: usize = 4;
const B: usize = 5;

/// Directories /a and /b of user 0 with labels 4 and 5, which process 2 may
/// only search. /a holds a file f and a directory d; /b has 16 names.
fn two_parents() -> Console {
    let mut console = Console::open_policy();
    for (slot, path) in (4..).zip(["/a", "/b", "/a/d"]) {
        assert_eq!(console.make_directory(0, path, 0o755), Ok(slot));
    }
    assert_eq!(console.create(0, "/a/f", 0o755), Ok(7));
    for slot in 8..24 {
        assert_eq!(console.create(0, &format!("/b/{slot}"), 0), Ok(slot));
    }
    for parent in [A, B] {
        console.set_label(parent, parent as u32);
        allow(&mut console, parent, 1);
    }
    console
}

/// Gives process 2's label these rights over what has /a's or /b's.
fn allow(console: &mut Console, parent: usize, rights: u8) {
    console.policy[16 * 2 + parent] = rights;
}

/// What process 2 gets for renaming the file and the directory to this path.
fn both(console: &Console, new: &str) -> [Outcome; 2] {
    ["/a/f", "/a/d"].map(|old| console.clone().rename(2, old, new))
}

#[test]
fn rename_goes_walks_name_old_parent_new_parent_kind_room() {
    let mut console = two_parents();
    assert_eq!(console.rename(2, "/a/x", "/none/x"), stopped(6, 2));
    assert_eq!(both(&console, "/none/x"), [stopped(6, 1); 2]);
    assert_eq!(both(&console, "/b/8"), [no(11); 2]);
    assert_eq!(both(&console, "/b/x"), [no(9); 2]);
    console.set_bits(A, 0o777);
    assert_eq!(both(&console, "/b/x"), [no(10); 2]); // before /b's 9
    allow(&mut console, A, 3);
    assert_eq!(both(&console, "/b/x"), [no(9); 2]);
    console.set_bits(B, 0o777);
    assert_eq!(both(&console, "/b/x"), [no(10); 2]);
    allow(&mut console, B, 3);
    assert_eq!(both(&console, "/b/x"), [no(13), no(8)]);
    assert_eq!(console.unlink(2, "/b/9"), Ok(0));
    assert_eq!(both(&console, "/b/x"), [Ok(0), no(8)]);
}

#[test]
fn within_one_parent_it_goes_walks_name_bits_label() {
    let mut console = two_parents();
    assert_eq!(console.rename(2, "/a/x", "/a/f"), stopped(6, 2));
    assert_eq!(both(&console, "/a/f"), [no(11); 2]);
    assert_eq!(both(&console, "/a/x"), [no(9); 2]);
    console.set_bits(A, 0o777);
    assert_eq!(both(&console, "/a/x"), [no(10); 2]);
    allow(&mut console, A, 3);
    assert_eq!(both(&console, "/a/x"), [Ok(0); 2]);
}

/// Each parent is asked with the class of the caller that fits it.
#[test]
fn both_parents_are_asked() {
    let mut console = Console::new();
    assert_eq!(console.rename(1, "/fares/now", "/x"), no(9));
    assert_eq!(console.rename(1, "/key", "/fares/x"), no(9));
    console.set_bits(0, 0o775);
    assert_eq!(console.rename(1, "/fares/now", "/x"), Ok(0));
    assert_eq!(console.rename(1, "/key", "/fares/x"), Ok(0));
    console.set_label(1, 3); // which 1 may write to and not search
    assert_eq!(console.rename(1, "/fares/x", "/y"), stopped(10, 2));
    assert_eq!(console.rename(1, "/x", "/fares/y"), stopped(10, 2));
}

#[test]
fn malformed_comes_first() {
    let mut console = Console::new();
    assert_eq!(console.rename(1, "/none", "/fares/"), no(3));
    assert_eq!(console.rename(1, "/fares/now/", "/none/x"), no(3));
    assert_eq!(console.rename(1, "/none", "/"), no(3));
    assert_eq!(console.rename(0, "/", "/fares/now"), no(3));
    let answer = console.call(request(3, 20), b"/", b"", &mut []);
    assert_eq!(outcome(&answer), no(2));
}

#[test]
fn the_old_walk_counts_names_of_the_old_path() {
    let mut console = Console::new();
    for new in ["/fares/x", "/fares/now", "/none/x", "/key/x"] {
        assert_eq!(console.rename(1, "/x", new), stopped(6, 1));
        assert_eq!(console.rename(1, "/fares/no", new), stopped(6, 2));
        assert_eq!(console.rename(1, "/fares/no/x", new), stopped(6, 2));
        assert_eq!(console.rename(1, "//fares//now/x", new), stopped(7, 3));
    }
    console.set_bits(1, 0o744);
    assert_eq!(console.rename(2, "/fares/now", "/x"), stopped(9, 2));
    console.set_bits(1, 0o755);
    console.set_label(1, 3);
    assert_eq!(console.rename(2, "/fares/now", "/x"), stopped(10, 2));
}

#[test]
fn the_new_walk_counts_names_of_the_new_path() {
    let mut console = Console::new();
    assert_eq!(console.make_directory(1, "/fares/d", 0o755), Ok(4));
    for old in ["/fares/now", "/fares", "/key"] {
        assert_eq!(console.rename(2, old, "/x/y"), stopped(6, 1));
        assert_eq!(console.rename(2, old, "/fares/d/x/y/z"), stopped(6, 3));
        assert_eq!(console.rename(2, old, "/key/x"), stopped(7, 2));
        assert_eq!(console.rename(2, old, "/fares/now/x"), stopped(7, 3));
        assert_eq!(console.rename(2, old, "/fares/now/x/y"), stopped(7, 3));
    }
    console.set_bits(4, 0o744);
    assert_eq!(console.rename(2, "/key", "/fares/d/x"), stopped(9, 3));
    console.set_bits(4, 0o755);
    console.set_label(4, 3);
    assert_eq!(console.rename(2, "/key", "/fares/d/x"), stopped(10, 3));
}

/// "Even if both paths are equal", and so however the name is written.
#[test]
fn a_name_that_is_there() {
    let mut console = Console::open_policy();
    assert_eq!(console.symlink(1, "/fares/l", "/fares"), Ok(4));
    assert_eq!(console.symlink(1, "/fares/gone", "/none"), Ok(5));
    assert_eq!(console.make_directory(1, "/fares/d", 0o755), Ok(6));
    for process in 0..3 {
        for (old, new) in [
            ("/fares/now", "/fares/now"),
            ("/fares/now", "//fares///now"),
            ("/fares/now", "/fares/l/now"),
            ("/fares/l/now", "/fares/now"),
            ("/fares/now", "/fares/l"),
            ("/fares/now", "/fares/gone"),
            ("/fares/gone", "/fares/gone"),
            ("/fares/now", "/fares/d"),
            ("/fares/d", "/fares/d"),
            ("/fares/d", "/fares/now"),
            ("/fares/d", "/key"), // before 8
            ("/fares", "/fares"),
            ("/fares", "/fares/now"), // before 8
            ("/fares", "/key"),
            ("/key", "/fares"),
        ] {
            assert_eq!(console.rename(process, old, new), no(11), "{old} {new}");
        }
    }
}

#[test]
fn a_directory_stays_in_its_parent() {
    let mut console = Console::new();
    for (slot, path) in (4..).zip(["/fares/d", "/fares/e", "/fares/d/f"]) {
        assert_eq!(console.make_directory(1, path, 0o755), Ok(slot));
    }
    for (old, new) in [
        ("/fares", "/fares/x"), // into itself
        ("/fares", "/fares/d/f/x"),
        ("/fares/d", "/fares/d/x"),
        ("/fares/d", "/fares/d/f/x"),
        ("/fares/d", "/x"),
        ("/fares/d/f", "/x"),
        ("/fares/d/f", "/fares/f"),
        ("/fares/d/f", "/fares/e/f"),
    ] {
        assert_eq!(console.rename(0, old, new), no(8), "{old} {new}");
        assert_eq!(console.rename(2, old, new), no(9), "{old} {new}");
    }
    assert_eq!(console.rename(0, "/fares/d", "/fares/x"), Ok(0));
    assert_eq!(console.rename(1, "/fares/x/f", "/fares/x/g"), Ok(0));
    assert_eq!(console.rename(0, "/fares", "/x"), Ok(0));
}
