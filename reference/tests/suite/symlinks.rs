//! Making symbolic links and reading their texts.

use crate::console::{request, Console, DIRECTORY, FREE, SLOTS, SYMLINK};
use crate::steps::{no, outcome, stopped};
use reference::Request;

const LONGEST: &str = "/12345678901234/12345678901234/12345678901234/12345678901234/123";

#[test]
fn a_new_one_is_of_the_caller_and_has_no_bits() {
    let mut console = Console::new();
    console.set_label(1, 9);
    console.policy[16 + 9] = 7;
    console.set_group(1, 6);
    console.set_version(4, 77);
    assert_eq!(console.symlink(1, "/fares/today", "/fares/now"), Ok(4));
    assert_eq!(console.file(4), [SYMLINK, 10, 6, 0, 9, 10, 1, 77]);
    assert_eq!(console.bytes(4), b"/fares/now");
    assert_eq!(console.file(1), [DIRECTORY, 10, 1, 0o755, 9, 2, 1, 1]);
    assert_eq!(&console.block(1)[16..32], b"today\0\0\0\0\0\0\0\0\0\x04\0");
}

#[test]
fn the_lowest_slot_and_entry_are_taken() {
    let mut console = Console::new();
    assert_eq!(console.create(1, "/fares/x", 0), Ok(4));
    assert_eq!(console.unlink(1, "/fares/now"), Ok(0));
    assert_eq!(console.symlink(1, "/fares/today", "/"), Ok(2));
    assert_eq!(console.version(2), 1);
    assert_eq!(&console.block(1)[..6], b"today\0");
}

#[test]
fn a_text_is_a_well_formed_path() {
    let slashes = "/".repeat(64);
    let good = [
        "/",
        "//",
        &slashes,
        "/none",
        "/fares/today",
        "//fares///now",
        "/1/2/3/4/5/6/7/8",
        "/12345678901234",
        "/.../x.",
        "/a\nb\u{ff}",
        LONGEST,
    ];
    for text in good {
        let mut console = Console::new();
        assert_eq!(console.symlink(1, "/fares/today", text), Ok(4), "{text}");
        assert_eq!(console.length(4), text.len());
        assert_eq!(console.bytes(4), text.as_bytes());
    }
}

#[test]
fn a_text_that_is_no_well_formed_path_is_3() {
    let slashes = "/".repeat(65);
    let longer = format!("/{LONGEST}");
    let bad = [
        "",
        "now",
        "fares/now",
        ".",
        " /fares",
        "/fares/",
        "//fares//",
        "/.",
        "/..",
        "/fares/../key",
        "/./fares",
        "/1/2/3/4/5/6/7/8/9",
        "/123456789012345",
        "/fares\0",
        "/fa\0res",
        &slashes,
        &longer,
    ];
    for text in bad {
        let mut console = Console::new();
        assert_eq!(console.symlink(1, "/fares/today", text), no(3), "{text}");
    }
}

#[test]
fn a_path_that_is_the_root_or_not_well_formed_is_3() {
    let mut console = Console::new();
    for path in ["", "today", "/fares/", "/fares/..", "/fares\0"] {
        assert_eq!(console.symlink(0, path, "/fares/now"), no(3), "{path}");
        assert_eq!(console.read_symlink(0, path, 9), Err((3, 0)), "{path}");
    }
    for path in ["/", "//"] {
        assert_eq!(console.symlink(0, path, "/fares/now"), no(3));
        assert_eq!(console.read_symlink(0, path, 9), Err((8, 0)));
    }
}

#[test]
fn malformed_comes_after_the_process_and_before_the_walk() {
    let mut console = Console::new();
    assert_eq!(console.symlink(3, "/none/x", "no path"), no(2));
    assert_eq!(console.symlink(1, "/none/x", "no path"), no(3));
    assert_eq!(console.symlink(1, "/none/x", "/"), stopped(6, 1));
    assert_eq!(console.symlink(1, "/fares/now", "/fares/"), no(3));
    assert_eq!(console.read_symlink(3, "no path", 9), Err((2, 0)));
}

#[test]
fn making_goes_walk_name_bits_label_room() {
    let mut console = Console::new();
    for slot in 4..19 {
        let path = format!("/fares/{slot}");
        assert_eq!(console.symlink(1, &path, "/fares"), Ok(slot));
    }
    let make = |console: &mut Console, path: &str| console.symlink(2, path, "/none");
    assert_eq!(make(&mut console, "/fares/now/x"), stopped(7, 3));
    assert_eq!(make(&mut console, "/none/x"), stopped(6, 1));
    assert_eq!(make(&mut console, "/fares/now"), no(11));
    assert_eq!(make(&mut console, "/fares/4"), no(11));
    assert_eq!(make(&mut console, "/fares/x"), no(9));
    console.set_bits(1, 0o777);
    assert_eq!(make(&mut console, "/fares/x"), no(10));
    console.policy[16 * 2] = 7;
    assert_eq!(make(&mut console, "/fares/x"), no(13));
    console.set_bits(1, 0o766);
    assert_eq!(make(&mut console, "/fares/now"), stopped(9, 2));
}

#[test]
fn making_needs_a_free_slot() {
    let mut console = Console::new();
    for slot in 4..SLOTS {
        let number = slot - 4;
        let path = match number {
            0..8 => format!("/fares/{number}"),
            _ => format!("/fares/{}/{slot}", (number - 8) / 15),
        };
        let made = match number {
            0..8 => console.make_directory(1, &path, 0o700),
            _ => console.symlink(1, &path, "/"),
        };
        assert_eq!(made, Ok(slot as u32));
    }
    assert_eq!(console.symlink(1, "/fares/x", "/"), no(13));
    assert_eq!(console.unlink(1, "/fares/0/12"), Ok(0));
    assert_eq!(console.symlink(1, "/fares/x", "/"), Ok(12));
}

#[test]
fn parts_not_used_are_not_looked_at() {
    let mut console = Console::new();
    let odd = |call| Request {
        descriptor: 200,
        number: 60_000,
        ..request(1, call)
    };
    let answer = console.call(odd(18), b"/fares/today", b"/fares/now", &mut [1]);
    assert_eq!(outcome(&answer), Ok(4));
    assert_eq!(console.file(4), [SYMLINK, 10, 1, 0, 0, 10, 1, 0]);
    let answer = console.call(odd(19), b"/fares/today", b"?", &mut [1; 20]);
    assert_eq!(outcome(&answer), Ok(10));
}

#[test]
fn as_much_of_the_text_is_read_as_the_buffer_holds() {
    let mut console = Console::new();
    assert_eq!(console.symlink(1, "/fares/today", "//fares//now"), Ok(4));
    let before = console.clone();
    for size in [0, 1, 5, 11, 12, 13, 64, 512, 513, 70_000] {
        let text = &b"//fares//now"[..size.min(12)];
        assert_eq!(
            console.read_symlink(2, "/fares/today", size),
            Ok(text.to_vec())
        );
    }
    assert_eq!(console, before);
    let mut buffer = [9; 14];
    console.call(request(2, 19), b"/fares/today", b"", &mut buffer);
    assert_eq!(&buffer, b"//fares//now\x09\x09");
}

#[test]
fn only_a_symbolic_link_has_a_text_to_read() {
    let mut console = Console::new();
    assert_eq!(console.read_symlink(2, "/fares/now", 9), Err((8, 0)));
    assert_eq!(console.read_symlink(2, "/fares", 9), Err((8, 0)));
    assert_eq!(console.read_symlink(2, "/", 9), Err((8, 0)));
    assert_eq!(console.read_symlink(2, "/none", 9), Err((6, 1)));
    assert_eq!(console.read_symlink(2, "/fares/now/x", 9), Err((7, 3)));
    console.set_bits(1, 0o766);
    assert_eq!(console.read_symlink(2, "/fares/now", 9), Err((9, 2)));
    console.set_label(1, 3);
    assert_eq!(console.read_symlink(0, "/fares/now", 9), Err((10, 2)));
}

#[test]
fn nothing_is_asked_of_the_links_own_bits_and_label() {
    let mut console = Console::new();
    assert_eq!(console.symlink(1, "/fares/today", "/fares/now"), Ok(4));
    console.set_label(4, 3); // over which 2 has no rights
    let text = b"/fares/now".to_vec();
    assert_eq!(console.read_symlink(2, "/fares/today", 64), Ok(text));
    assert_eq!(console.open(2, "/fares/today", 1), Ok(0));
    assert_eq!(console.stat(2, "/fares/today"), Ok(console.file(4)));
    assert_eq!(console.unlink(1, "/fares/today"), Ok(0));
}

#[test]
fn unlink_takes_the_link_away_and_not_what_it_names() {
    let mut console = Console::new();
    let now = console.file(2);
    assert_eq!(console.symlink(1, "/fares/today", "/fares/now"), Ok(4));
    assert_eq!(console.unlink(2, "/fares/today"), no(9));
    assert_eq!(console.unlink(1, "/fares/today"), Ok(0));
    assert_eq!(console.file(4), [FREE, 0, 0, 0, 0, 0, 0, 1]);
    assert!(console.block(4).iter().all(|&byte| byte == 0));
    assert_eq!(console.file(1), [DIRECTORY, 10, 1, 0o755, 0, 1, 1, 2]);
    assert_eq!(console.file(2), now);
    assert_eq!(console.unlink(1, "/fares/today"), stopped(6, 2));
}

#[test]
fn a_link_does_not_keep_its_file() {
    let mut console = Console::new();
    assert_eq!(console.symlink(1, "/fares/today", "/fares/now"), Ok(4));
    assert_eq!(console.unlink(1, "/fares/now"), Ok(0));
    assert_eq!(console.file(2), [FREE, 0, 0, 0, 0, 0, 0, 1]);
    assert_eq!(console.open(2, "/fares/today", 1), stopped(6, 2));
    assert_eq!(console.create(1, "/fares/now", 0o777), Ok(2));
    assert_eq!(console.open(2, "/fares/today", 1), Ok(0));
}
