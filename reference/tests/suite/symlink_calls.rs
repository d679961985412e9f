//! Symbolic links before the last name and at it, in every call on a path.

use crate::console::{request, Console, FILE_BITS, PLAIN, PROCESS_LABEL, SYMLINK};
use crate::steps::{no, outcome, stopped};

/// Links in the root, in slots 4 to 8.
pub const LINKS: [(&str, &str); 5] = [
    ("/day", "/fares"),
    ("/today", "/day/now"),
    ("/gone", "/fares/no"),
    ("/ring", "/ring"),
    ("/top", "//"),
];

pub fn linked() -> Console {
    let mut console = Console::new();
    for (slot, (path, text)) in (4..).zip(LINKS) {
        assert_eq!(console.symlink(0, path, text), Ok(slot));
    }
    console
}

#[test]
fn before_the_last_name_every_call_follows() {
    let mut console = linked();
    assert_eq!(console.open(2, "/day/now", 1), Ok(0));
    assert_eq!(console.read(2, 0, 16), Ok(b"2.40\n".to_vec()));
    assert_eq!(console.create(1, "/day/x", 0o700), Ok(9));
    assert_eq!(console.stat(1, "/fares/x"), Ok(console.file(9)));
    assert_eq!(console.make_directory(1, "/top/day/d", 0o700), Ok(10));
    assert_eq!(console.stat(1, "/fares/d"), Ok(console.file(10)));
    assert_eq!(console.link(1, "/day/x", "/top/fares/d/y"), Ok(0));
    assert_eq!(console.links(9), 2);
    assert_eq!(console.list(1, "/day/d", 0), Ok(Some(b"y".to_vec())));
    assert_eq!(console.change_bits(1, "/day/x", 0o751), Ok(0));
    assert_eq!(console.file(9)[FILE_BITS], 0o751);
    assert_eq!(console.stat(2, "/day/now"), Ok(console.file(2)));
    assert_eq!(console.execute(2, "/day/x"), Ok(0));
    assert_eq!(console.symlink(1, "/day/l", "/day/now"), Ok(11));
    let text = b"/day/now".to_vec();
    assert_eq!(console.read_symlink(1, "/top/day/l", 64), Ok(text));
    assert_eq!(console.unlink(1, "/day/x"), Ok(0));
    assert_eq!(console.unlink(1, "/day/d/y"), Ok(0));
    assert_eq!(console.remove_directory(1, "/day/d"), Ok(0));
    assert_eq!(console.unlink(1, "/day/l"), Ok(0));
    assert_eq!(console.length(1), 1);
}

#[test]
fn open_follows_the_last_name() {
    let mut console = linked();
    assert_eq!(console.open(2, "/today", 1), Ok(0));
    assert_eq!(console.open_file(0), [2, 1, 0, 1]);
    assert_eq!(console.open(2, "/today", 2), no(9));
    assert_eq!(console.open(2, "/day", 1), no(8));
    assert_eq!(console.open(2, "/top", 1), no(8));
    assert_eq!(console.open(1, "/today", 10), Ok(0));
    assert_eq!((console.length(2), console.length(5)), (0, 8));
}

#[test]
fn execute_follows_the_last_name() {
    let mut console = linked();
    console.policy[256 + 16] = 5; // from label 1 by a program of label 0
    console.policy[256 + 16 + 9] = 6;
    console.set_label(5, 9); // the link is not the program
    assert_eq!(console.execute(2, "/today"), no(9));
    assert_eq!(console.execute(1, "/day"), no(8));
    assert_eq!(console.execute(1, "/today"), Ok(0));
    assert_eq!(console.process(1)[PROCESS_LABEL], 5);
}

#[test]
fn list_follows_the_last_name() {
    let mut console = linked();
    assert_eq!(console.list(2, "/day", 0), Ok(Some(b"now".to_vec())));
    assert_eq!(console.list(2, "/top", 0), Ok(Some(b"day".to_vec())));
    assert_eq!(console.list(2, "/today", 0), Err((8, 0)));
    assert_eq!(console.list(2, "/gone", 0), Err((6, 1)));
    console.set_bits(1, 0o711);
    assert_eq!(console.list(2, "/day", 0), Err((9, 0)));
}

#[test]
fn change_bits_follows_the_last_name() {
    let mut console = linked();
    assert_eq!(console.change_bits(2, "/today", 0), no(9));
    assert_eq!(console.change_bits(1, "/today", 0o111), Ok(0));
    assert_eq!(console.file(2), [PLAIN, 10, 1, 0o111, 0, 5, 1, 0]);
    assert_eq!(console.file(5), [SYMLINK, 0, 1, 0, 0, 8, 1, 0]);
    assert_eq!(console.change_bits(0, "/top", 0o711), Ok(0));
    assert_eq!(console.file(0)[FILE_BITS], 0o711);
    assert_eq!(console.change_bits(0, "/gone", 0), stopped(6, 1));
}

#[test]
fn stat_and_reading_the_text_take_the_link_itself() {
    let mut console = linked();
    for (slot, (path, text)) in (4..).zip(LINKS) {
        let record = [SYMLINK, 0, 1, 0, 0, text.len() as u32, 1, 0];
        assert_eq!(console.file(slot), record);
        assert_eq!(console.stat(2, path), Ok(record));
        assert_eq!(console.read_symlink(2, path, 64), Ok(text.into()));
    }
}

#[test]
fn unlink_takes_the_link_itself() {
    let mut console = linked();
    for (path, _) in LINKS {
        assert_eq!(console.unlink(0, path), Ok(0));
        assert_eq!(console.stat(0, path), Err((6, 1)));
    }
    assert_eq!(console.unlink(0, "/fares"), no(8));
    assert!(console.stat(2, "/fares/now").is_ok());
}

#[test]
fn remove_directory_of_a_link_is_8() {
    for (path, _) in LINKS {
        assert_eq!(linked().remove_directory(0, path), no(8));
        assert_eq!(linked().remove_directory(2, path), no(8)); // before 9
    }
}

#[test]
fn hard_linking_a_link_is_8() {
    for (path, _) in LINKS {
        assert_eq!(linked().link(0, path, "/x"), no(8));
        assert_eq!(linked().link(0, path, "/none/x"), no(8)); // before the new walk
    }
}

#[test]
fn a_link_at_a_new_name_is_a_name_already_there() {
    for (path, _) in LINKS {
        let mut console = linked();
        assert_eq!(console.create(2, path, 0), no(11));
        assert_eq!(console.make_directory(2, path, 0), no(11));
        assert_eq!(console.symlink(2, path, "/x"), no(11));
        assert_eq!(console.link(2, "/fares/now", path), no(11));
        assert_eq!(console.rename(2, "/fares/now", path), no(11));
    }
}

#[test]
fn a_dangling_link_stops_at_the_name_that_met_it() {
    let mut console = linked();
    assert_eq!(console.open(2, "/gone", 1), stopped(6, 1));
    assert_eq!(console.execute(2, "/gone"), stopped(6, 1));
    assert_eq!(console.open(2, "/top/gone", 1), stopped(6, 2));
    for call in [1, 2, 3, 4, 5, 6, 7, 8, 9, 17, 18, 19, 20] {
        let mut request = request(0, call);
        request.number = u16::from(call == 1);
        let answer = console.call(request, b"/top/gone/x", b"/x", &mut []);
        assert_eq!(outcome(&answer), stopped(6, 2), "{call}");
    }
    assert_eq!(
        console.link(0, "/fares/now", "/top/top/gone/x"),
        stopped(6, 3)
    );
}

/// Names that a call does not follow are judged as they are.
#[test]
fn a_ring_is_refused_only_where_it_is_followed() {
    for call in [1, 7, 8, 17] {
        let mut request = request(0, call);
        request.number = u16::from(call == 1);
        let answer = linked().call(request, b"/top/ring", b"", &mut []);
        assert_eq!(outcome(&answer), stopped(15, 2), "{call}");
    }
    let refused = [(2, 11), (3, 11), (5, 8), (6, 8), (18, 11)];
    for (call, refusal) in refused {
        let answer = linked().call(request(0, call), b"/top/ring", b"/x", &mut []);
        assert_eq!(outcome(&answer), no(refusal), "{call}");
    }
    for call in [4, 9, 19, 20] {
        let answer = linked().call(request(0, call), b"/top/ring", b"/x", &mut []);
        assert_eq!(outcome(&answer), Ok(0), "{call}");
    }
    for call in [1, 2, 3, 4, 5, 6, 7, 8, 9, 17, 18, 19, 20] {
        let mut request = request(0, call);
        request.number = u16::from(call == 1);
        let answer = linked().call(request, b"/top/ring/x", b"/x", &mut []);
        assert_eq!(outcome(&answer), stopped(15, 2), "{call}");
    }
}
