//! the user of source 001, sections 1.3 and 5, who cannot remove his own
//! directory foo, since it holds bar, another user's and not empty.

use crate::console::{Console, FREE};
use crate::steps::no;

/// A's process, user 10's, and another user's, 20's.
pub const A: u8 = 1;
const OTHER: u8 = 2;

pub const FARES: usize = 1;
pub const FOO: usize = 4;
pub const BAR: usize = 5;
const BAZ: usize = 6;

/// Bits of bar, which is of group 1, and a group of A's, by which A may search
/// bar and not write to it. The class of A decides alone.
pub const NOT_WRITABLE: [(u16, u32); 4] = [(0o755, 1), (0o755, 2), (0o775, 2), (0o757, 1)];

impl Console {
    /// The three operations of section 5.2, with every right by the labels: A
    /// makes foo for all to write to, another user makes bar and baz.
    pub fn bogus(bits: u16, group: u32) -> Console {
        let mut console = Console::open_policy();
        console.set_group(A.into(), group);
        let made = [
            console.make_directory(A, "/fares/foo", 0o777),
            console.make_directory(OTHER, "/fares/foo/bar", bits),
            console.create(OTHER, "/fares/foo/bar/baz", 0o644),
        ];
        assert_eq!(made, [FOO, BAR, BAZ].map(|slot| Ok(slot as u32)));
        console
    }

    /// That bar is what it is in the other store, and foo names it in the same
    /// entry, under some name: R-10 lets A give it another.
    pub fn assert_bar_stays(&self, before: &Console) {
        assert_eq!(self.file(BAR), before.file(BAR));
        assert_eq!(self.block(BAR), before.block(BAR));
        assert_eq!(self.kind(FOO), before.kind(FOO));
        assert_eq!(self.block(FOO)[14], BAR as u8);
        assert_eq!(before.block(FOO)[14], BAR as u8);
    }

    /// The same under its own name, where no call was a rename.
    fn assert_bar_keeps_its_name(&self, before: &Console) {
        self.assert_bar_stays(before);
        assert_eq!(self.block(FOO)[..16], before.block(FOO)[..16]);
        assert_eq!(before.block(FOO)[..4], *b"bar\0");
    }
}

/// The three commands of section 1.3 and the other ways out, by this process.
fn assert_stuck(console: &mut Console, process: u8) {
    let before = console.clone();
    assert_eq!(console.remove_directory(process, "/fares/foo"), no(12));
    assert_eq!(console.remove_directory(process, "/fares/foo/bar"), no(12));
    assert_eq!(console.unlink(process, "/fares/foo/bar/baz"), no(9));
    assert_eq!(console.unlink(process, "/fares/foo/bar"), no(8));
    assert_eq!(console.unlink(process, "/fares/foo"), no(8));
    assert_eq!(console.remove_directory(process, "/fares"), no(9));

    for bits in [0o777, 0o755, 0] {
        assert_eq!(console.change_bits(process, "/fares/foo/bar", bits), no(9));
    }
    let new = "/fares/foo/bar/x";
    assert_eq!(console.create(process, new, 0o777), no(9));
    assert_eq!(console.make_directory(process, new, 0o777), no(9));
    assert_eq!(console.link(process, "/fares/now", new), no(9));
    assert_eq!(console.link(process, "/fares/foo/bar/baz", new), no(9));
    assert_eq!(console.symlink(process, new, "/fares/now"), no(9));
    assert_eq!(console.link(process, "/fares/foo/bar", "/fares/b"), no(8));
    assert_eq!(console.open(process, "/fares/foo/bar", 10), no(8));
    assert_no_way_by_rename(console, process);
    assert_eq!(*console, before);
}

/// Bar does not leave foo, and nothing enters bar or leaves it.
fn assert_no_way_by_rename(console: &mut Console, process: u8) {
    for (old, new, refusal) in [
        ("/fares/foo/bar", "/fares/b", 8),
        ("/fares/foo/bar", "/fares/foo/bar/b", 9),
        ("/fares/foo/bar/baz", "/fares/b", 9),
        ("/fares/foo/bar/baz", "/fares/foo/b", 9),
        ("/fares/foo/bar/baz", "/fares/foo/bar/b", 9),
        ("/fares/now", "/fares/foo/bar/b", 9),
        ("/fares/foo", "/fares/foo/b", 8),
        ("/fares/foo", "/fares/foo/bar/b", 9),
    ] {
        assert_eq!(console.rename(process, old, new), no(refusal), "{old}");
    }
}

#[test]
fn no_call_of_a_removes_foo() {
    for (bits, group) in NOT_WRITABLE {
        let mut console = Console::bogus(bits, group);
        assert_stuck(&mut console, A);
    }
}

#[test]
fn no_call_of_as_children_does() {
    for (bits, group) in NOT_WRITABLE {
        let mut console = Console::bogus(bits, group);
        let before = console.clone();
        assert_eq!(console.fork(A), Ok(3));
        assert_stuck(&mut console, 3);
        assert_eq!(console.execute(3, "/fares/now"), Ok(0));
        assert_eq!(console.fork(3), Ok(4));
        assert_eq!(console.exit(3), Ok(0));
        assert_stuck(&mut console, 4);
        assert_stuck(&mut console, A);
        console.assert_bar_keeps_its_name(&before);
    }
}

/// By another way to it bar is the same bar.
#[test]
fn no_symbolic_link_helps() {
    let mut console = Console::bogus(0o755, 1);
    assert_eq!(console.symlink(A, "/fares/l", "/fares/foo/bar"), Ok(7));
    let before = console.clone();
    assert_eq!(console.create(A, "/fares/l/x", 0o777), no(9));
    assert_eq!(console.unlink(A, "/fares/l/baz"), no(9));
    assert_eq!(console.change_bits(A, "/fares/l", 0o777), no(9));
    assert_eq!(console.remove_directory(A, "/fares/l"), no(8));
    assert_eq!(console.rename(A, "/fares/l/baz", "/fares/b"), no(9));
    assert_eq!(console.rename(A, "/fares/now", "/fares/l/b"), no(9));
    assert_eq!(console, before);
    assert_eq!(console.unlink(A, "/fares/l"), Ok(0));
    console.assert_bar_keeps_its_name(&before);
}

/// What A may do with foo, and with baz in other directories, leaves bar as it
/// is.
#[test]
fn what_is_granted_leaves_bar_alone() {
    let mut console = Console::bogus(0o755, 1);
    let before = console.clone();
    assert_eq!(console.create(A, "/fares/foo/x", 0o700), Ok(7));
    assert_eq!(console.make_directory(A, "/fares/foo/d", 0o700), Ok(8));
    assert_eq!(console.link(A, "/fares/foo/bar/baz", "/fares/b"), Ok(0));
    assert_eq!(console.open(A, "/fares/foo/bar/baz", 1), Ok(0));
    assert_eq!(console.unlink(A, "/fares/b"), Ok(0));
    assert_eq!(console.exit(A), Ok(0));
    console.assert_bar_keeps_its_name(&before);
}

/// A who shuts himself out of foo has it no less: he lets himself in again.
#[test]
fn foos_own_bits_do_not_matter() {
    let mut console = Console::bogus(0o755, 1);
    for bits in [0, 0o077, 0o300, 0o700] {
        let before = console.clone();
        assert_eq!(console.change_bits(A, "/fares/foo", bits), Ok(0));
        assert_eq!(console.remove_directory(A, "/fares/foo"), no(12));
        console.assert_bar_keeps_its_name(&before);
    }
    assert_stuck(&mut console, A);
}

/// "Under some name": A may give bar and foo other names, and has them
/// no less.
#[test]
fn other_names_do_not_help() {
    for (bits, group) in NOT_WRITABLE {
        let mut console = Console::bogus(bits, group);
        let before = console.clone();
        assert_eq!(console.rename(A, "/fares/foo/bar", "/fares/foo/b"), Ok(0));
        assert_eq!(console.stat(A, "/fares/foo/bar"), Err((6, 3)));
        assert_eq!(console.rename(A, "/fares/foo", "/fares/f"), Ok(0));
        console.assert_bar_stays(&before);
        assert_eq!(console.block(FOO)[..4], *b"b\0\0\0");

        assert_eq!(console.remove_directory(A, "/fares/f"), no(12));
        assert_eq!(console.remove_directory(A, "/fares/f/b"), no(12));
        assert_eq!(console.unlink(A, "/fares/f/b/baz"), no(9));
        assert_eq!(console.rename(A, "/fares/f/b", "/fares/b"), no(8));
        console.assert_bar_stays(&before);
        assert_eq!(console.rename(A, "/fares/f", "/fares/foo"), Ok(0));
        assert_eq!(console.rename(A, "/fares/foo/b", "/fares/foo/bar"), Ok(0));
        assert_stuck(&mut console, A);
        console.assert_bar_keeps_its_name(&before);
    }
}

/// The premise that A has no write right on bar: without it the same create is
/// granted, and A needs nobody.
#[test]
fn a_group_that_may_write_is_a_way_out() {
    let mut console = Console::bogus(0o775, 1);
    assert_eq!(console.create(A, "/fares/foo/bar/x", 0o777), Ok(7));
    assert_eq!(console.change_bits(A, "/fares/foo/bar", 0o777), no(9));
    assert_eq!(console.remove_directory(A, "/fares/foo/bar"), no(12));
    for name in ["x", "baz"] {
        let path = format!("/fares/foo/bar/{name}");
        assert_eq!(console.unlink(A, &path), Ok(0));
    }
    assert_removable(&mut console);
}

/// "Only after user2 has cleaned up his directory", or user 0 has.
#[test]
fn another_user_may_empty_bar() {
    for process in [OTHER, 0] {
        let mut console = Console::bogus(0o755, 1);
        assert_stuck(&mut console, A);
        assert_eq!(console.unlink(process, "/fares/foo/bar/baz"), Ok(0));
        assert_removable(&mut console);
    }
}

/// "Alternatively user2 could remove foo/bar as well", as foo is for all to
/// write to; but only once it is empty.
#[test]
fn another_user_may_remove_bar() {
    let mut console = Console::bogus(0o755, 1);
    assert_eq!(console.remove_directory(OTHER, "/fares/foo/bar"), no(12));
    assert_eq!(console.unlink(OTHER, "/fares/foo/bar/baz"), Ok(0));
    assert_eq!(console.remove_directory(OTHER, "/fares/foo/bar"), Ok(0));
    assert_eq!(console.remove_directory(OTHER, "/fares/foo"), no(9));
    assert_eq!(console.remove_directory(A, "/fares/foo"), Ok(0));
}

/// That A may remove bar and then foo.
fn assert_removable(console: &mut Console) {
    assert_eq!(console.remove_directory(A, "/fares/foo"), no(12));
    assert_eq!(console.remove_directory(A, "/fares/foo/bar"), Ok(0));
    assert_eq!(console.remove_directory(A, "/fares/foo"), Ok(0));
    assert_eq!([FOO, BAR, BAZ].map(|slot| console.kind(slot)), [FREE; 3]);
}
