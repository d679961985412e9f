//! Which refusal is given where several hold.

use crate::console::{request, Console, FILE_KIND};
use crate::steps::{no, outcome, stopped};
use reference::Request;

#[test]
fn unsound_then_no_process_then_malformed() {
    let mut console = Console::new();
    let answer = console.raw(request(9, 99), b"", b"", &mut []);
    assert_eq!(outcome(&answer), no(2));
    console.set_field(0, FILE_KIND, 4);
    let answer = console.raw(request(9, 99), b"", b"", &mut []);
    assert_eq!(outcome(&answer), no(1));
}

#[test]
fn malformed_before_anything_about_the_store() {
    let mut console = Console::new();
    assert_eq!(console.seek(1, 0, 513), no(3)); // nothing held
    assert_eq!(console.seek(1, 200, 513), no(3));
    assert_eq!(console.open(1, "/none", 9), no(3));
    assert_eq!(console.create(1, "/fares/now", 512), no(3));
    assert_eq!(console.change_bits(1, "/none", 512), no(3));
    assert_eq!(console.link(1, "/none", "/fares/"), no(3));
    assert_eq!(console.link(1, "/none", "/"), no(3));
    assert_eq!(console.open(1, "/none", 1), stopped(6, 1));
}

#[test]
fn not_held_then_direction_then_length() {
    let mut console = Console::new();
    assert_eq!(console.write(1, 0, &[1; 600]), no(4));
    assert_eq!(console.open(1, "/fares/now", 1), Ok(0));
    assert_eq!(console.write(1, 0, &[1; 600]), no(5));
    assert_eq!(console.open(1, "/fares/now", 3), Ok(1));
    assert_eq!(console.write(1, 1, &[1; 600]), no(14));
}

#[test]
fn not_held_before_no_free_descriptor() {
    let mut console = Console::new();
    for _ in 0..8 {
        assert!(console.open(2, "/fares/now", 1).is_ok());
    }
    assert_eq!(console.duplicate(2, 8), no(4));
    assert_eq!(console.duplicate(2, 7), no(13));
}

#[test]
fn a_directory_is_judged_kind_bits_label_name() {
    let mut console = Console::new();
    console.set_bits(3, 0o700); // /key: plain, no bits for 2, a forbidding label
    assert_eq!(console.open(2, "/key/x", 1), stopped(7, 2));
    console.set_bits(1, 0o744); // /fares may not be searched by bits
    console.set_label(1, 3); // nor by label
    assert_eq!(console.open(2, "/fares/none", 1), stopped(9, 2));
    console.set_bits(1, 0o755);
    assert_eq!(console.open(2, "/fares/none", 1), stopped(10, 2));
    console.set_label(1, 0);
    assert_eq!(console.open(2, "/fares/none", 1), stopped(6, 2));
}

#[test]
fn open_goes_walk_kind_bits_label_room() {
    let mut console = Console::new();
    for _ in 0..8 {
        assert!(console.open(2, "/fares/now", 1).is_ok());
    }
    assert_eq!(console.open(2, "/fares/none", 2), stopped(6, 2));
    assert_eq!(console.open(2, "/fares", 2), no(8));
    assert_eq!(console.open(2, "/key", 2), no(9));
    console.set_bits(3, 0o777);
    assert_eq!(console.open(2, "/key", 2), no(10));
    console.policy[16 * 2 + 3] = 2;
    assert_eq!(console.open(2, "/key", 2), no(13));
}

#[test]
fn create_goes_walk_name_bits_label_room() {
    let mut console = Console::new();
    for slot in 4..19 {
        assert_eq!(console.create(1, &format!("/fares/{slot}"), 0), Ok(slot));
    }
    for call in [2, 3] {
        let make = |console: &mut Console, path: &[u8]| {
            outcome(&console.call(request(2, call), path, b"", &mut []))
        };
        console.set_bits(1, 0o755);
        assert_eq!(make(&mut console, b"/fares/now/x"), stopped(7, 3));
        assert_eq!(make(&mut console, b"/fares/now"), no(11));
        assert_eq!(make(&mut console, b"/fares/x"), no(9));
        console.set_bits(1, 0o777);
        assert_eq!(make(&mut console, b"/fares/x"), no(10));
        console.policy[16 * 2] = 7;
        assert_eq!(make(&mut console, b"/fares/x"), no(13));
        console.policy[16 * 2] = 5;
    }
}

#[test]
fn unlink_goes_walk_kind_bits_label() {
    let mut console = Console::new();
    assert_eq!(console.make_directory(1, "/fares/d", 0o755), Ok(4));
    assert_eq!(console.unlink(2, "/fares/x"), stopped(6, 2));
    assert_eq!(console.unlink(2, "/fares/d"), no(8));
    assert_eq!(console.unlink(2, "/fares/now"), no(9));
    console.set_bits(1, 0o777);
    assert_eq!(console.unlink(2, "/fares/now"), no(10));
}

#[test]
fn remove_directory_goes_walk_kind_bits_label_empty() {
    let mut console = Console::new();
    assert_eq!(console.remove_directory(2, "/x"), stopped(6, 1));
    assert_eq!(console.remove_directory(2, "/key"), no(8));
    assert_eq!(console.remove_directory(2, "/fares"), no(9));
    console.set_bits(0, 0o777);
    assert_eq!(console.remove_directory(2, "/fares"), no(10));
    console.policy[16 * 2] = 7;
    assert_eq!(console.remove_directory(2, "/fares"), no(12));
}

#[test]
fn link_goes_old_kind_new_name_bits_label_room() {
    let mut console = Console::new();
    for slot in 4..19 {
        assert_eq!(console.create(1, &format!("/fares/{slot}"), 0), Ok(slot));
    }
    assert_eq!(console.link(2, "/fares/x", "/x/y"), stopped(6, 2));
    assert_eq!(console.link(2, "/fares", "/x/y"), no(8));
    assert_eq!(console.link(2, "/fares/now", "/x/y"), stopped(6, 1));
    assert_eq!(console.link(2, "/fares/now", "/fares/now"), no(11));
    assert_eq!(console.link(2, "/fares/now", "/fares/x"), no(9));
    console.set_bits(1, 0o777);
    assert_eq!(console.link(2, "/fares/now", "/fares/x"), no(10));
    console.policy[16 * 2] = 7;
    assert_eq!(console.link(2, "/fares/now", "/fares/x"), no(13));
}

#[test]
fn list_goes_walk_kind_bits_label() {
    let mut console = Console::new();
    console.set_bits(1, 0o700);
    console.set_label(1, 3);
    assert_eq!(console.list(2, "/x", 0), Err((6, 1)));
    assert_eq!(console.list(2, "/key", 0), Err((8, 0)));
    assert_eq!(console.list(2, "/fares", 0), Err((9, 0)));
    assert_eq!(console.list(1, "/fares", 0), Err((10, 0)));
}

#[test]
fn parts_that_a_call_does_not_use_are_not_looked_at() {
    let mut console = Console::new();
    let odd = |process, call| Request {
        descriptor: 200,
        number: 60_000,
        ..request(process, call)
    };
    for call in [9, 4] {
        let answer = console.call(odd(1, call), b"/fares/now", b"/", &mut [1]);
        assert_eq!(outcome(&answer), Ok(0));
    }
    for call in [15, 16] {
        let answer = console.call(odd(1, call), b"?", b"?", &mut [1]);
        assert_eq!(answer.refusal, 0);
    }
}
