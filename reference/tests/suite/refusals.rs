//! Each refusal, in the calls that can give it.

use crate::console::{request, Console, FILE_LENGTH, FILE_WIDTH, PROCESS_WIDTH, SLOTS};
use crate::steps::{no, outcome, stopped};
use reference::Request;

#[test]
fn refusal_1_for_tables_of_another_size() {
    let resized: [fn(&mut Console); 11] = [
        |console| console.files.truncate(SLOTS * FILE_WIDTH - 1),
        |console| console.files.push(0),
        |console| console.contents.truncate(SLOTS * 512 - 1),
        |console| console.contents.push(0),
        |console| console.open_files.truncate(127),
        |console| console.open_files.push(0),
        |console| console.processes.truncate(8 * PROCESS_WIDTH - 1),
        |console| console.processes.push(0),
        |console| console.policy.truncate(511),
        |console| console.policy.push(255),
        |console| {
            // All that a store of 64 slots has.
            console.files.truncate(64 * FILE_WIDTH);
            console.contents.truncate(64 * 512);
        },
    ];
    for resize in resized {
        let mut console = Console::new();
        resize(&mut console);
        assert!(!console.is_sound());
        let before = console.clone();
        for call in 0..=21 {
            let answer = console.raw(request(1, call), b"/fares", b"/x", &mut []);
            assert_eq!(outcome(&answer), no(1));
        }
        assert_eq!(console, before);
    }
}

#[test]
fn refusal_1_for_whole_records_too_many_or_too_few() {
    let mut console = Console::new();
    console.files.extend([0; FILE_WIDTH]);
    console.contents.extend([0; 512]);
    let answer = console.raw(request(0, 15), b"", b"", &mut []);
    assert_eq!(outcome(&answer), no(1));
    let mut empty = Console::new();
    empty.files.clear();
    empty.contents.clear();
    empty.open_files.clear();
    empty.processes.clear();
    empty.policy.clear();
    let answer = empty.raw(request(0, 15), b"", b"", &mut []);
    assert_eq!(outcome(&answer), no(1));
}

#[test]
fn refusal_1_for_an_unsound_store_and_an_unsound_policy() {
    let mut console = Console::new();
    console.set_field(2, FILE_LENGTH, 513);
    let before = console.clone();
    let answer = console.raw(request(2, 9), b"/fares/now", b"", &mut []);
    assert_eq!(outcome(&answer), no(1));
    assert_eq!(console, before);
    let mut console = Console::new();
    console.policy[255] = 8;
    let answer = console.raw(request(2, 9), b"/fares/now", b"", &mut []);
    assert_eq!(outcome(&answer), no(1));
}

#[test]
fn refusal_2_for_a_process_not_in_use_or_over_7() {
    for process in [3, 7, 8, 255] {
        for call in 0..=255 {
            let mut console = Console::new();
            let answer = console.call(request(process, call), b"/fares", b"", &mut []);
            assert_eq!(outcome(&answer), no(2));
        }
    }
}

#[test]
fn refusal_3_for_unknown_calls() {
    let mut console = Console::new();
    for call in (21..=255).chain([0]) {
        let answer = console.call(request(1, call), b"/fares", b"", &mut []);
        assert_eq!(outcome(&answer), no(3));
    }
}

#[test]
fn refusal_3_for_unknown_modes() {
    for mode in (0..64).chain([255, 256, 257, 258, 513, 65_535]) {
        let known = [1, 2, 3, 4, 10, 11, 12].contains(&mode);
        let expected = if known { Ok(0) } else { no(3) };
        assert_eq!(
            Console::new().open(1, "/fares/now", mode),
            expected,
            "{mode}"
        );
    }
}

#[test]
fn refusal_3_for_bits_over_511() {
    for bits in [512, 513, 1024, 65_535] {
        let mut console = Console::new();
        assert_eq!(console.create(1, "/fares/x", bits), no(3));
        assert_eq!(console.make_directory(1, "/fares/x", bits), no(3));
        assert_eq!(console.change_bits(1, "/fares/now", bits), no(3));
    }
    let mut console = Console::new();
    assert_eq!(console.change_bits(1, "/fares/now", 511), Ok(0));
}

#[test]
fn refusal_3_for_a_bad_path_in_every_call_with_a_path() {
    for call in [1, 2, 3, 4, 5, 6, 7, 8, 9, 17, 18, 19, 20] {
        let mut console = Console::new();
        let request = Request {
            number: 1,
            ..request(1, call)
        };
        let answer = console.call(request, b"/fares/", b"/x", &mut []);
        assert_eq!(outcome(&answer), no(3), "{call}");
    }
    assert_eq!(Console::new().link(1, "/fares/now", "/x/"), no(3));
    assert_eq!(Console::new().rename(1, "/fares/now", "/x/"), no(3));
}

#[test]
fn refusal_3_for_a_position_over_512() {
    for position in [513, 1024, 65_535] {
        let mut console = Console::new();
        assert_eq!(console.open(2, "/fares/now", 1), Ok(0));
        assert_eq!(console.seek(2, 0, position), no(3));
    }
}

#[test]
fn refusal_3_for_the_root_where_barred() {
    for root in ["/", "//", "///"] {
        let mut console = Console::new();
        assert_eq!(console.create(0, root, 0), no(3));
        assert_eq!(console.make_directory(0, root, 0), no(3));
        assert_eq!(console.unlink(0, root), no(3));
        assert_eq!(console.remove_directory(0, root), no(3));
        assert_eq!(console.link(0, "/fares/now", root), no(3));
        assert_eq!(console.rename(0, "/fares/now", root), no(3));
        assert_eq!(console.rename(0, root, "/x"), no(3));
        assert_eq!(console.link(0, root, "/x"), no(8));
        assert_eq!(console.open(0, root, 1), no(8));
    }
}

#[test]
fn refusal_4_for_a_descriptor_not_held() {
    let mut console = Console::new();
    assert_eq!(console.open(1, "/fares/now", 3), Ok(0));
    for (process, descriptor) in [(1, 1), (1, 7), (1, 8), (1, 255), (2, 0)] {
        assert_eq!(console.close(process, descriptor), no(4));
        assert_eq!(console.read(process, descriptor, 4), Err((4, 0)));
        assert_eq!(console.write(process, descriptor, b"x"), no(4));
        assert_eq!(console.write(process, descriptor, b""), no(4));
        assert_eq!(console.seek(process, descriptor, 0), no(4));
        assert_eq!(console.duplicate(process, descriptor), no(4));
    }
}

#[test]
fn refusal_5_for_the_other_direction() {
    for (mode, reads, writes) in [(1, true, false), (2, false, true), (4, false, true)] {
        let mut console = Console::new();
        assert_eq!(console.open(1, "/fares/now", mode), Ok(0));
        let read = console.read(1, 0, 1).map(|bytes| bytes.len());
        assert_eq!(read, if reads { Ok(1) } else { Err((5, 0)) });
        let expected = |value| if writes { Ok(value) } else { no(5) };
        assert_eq!(console.write(1, 0, b""), expected(0));
        assert_eq!(console.write(1, 0, b"x"), expected(1));
    }
}

#[test]
fn refusal_6_for_a_missing_name() {
    let mut console = Console::new();
    assert_eq!(console.open(1, "/x", 1), stopped(6, 1));
    assert_eq!(console.create(1, "/fares/x/y", 0), stopped(6, 2));
    assert_eq!(console.make_directory(1, "/x/y/z", 0), stopped(6, 1));
    assert_eq!(console.unlink(1, "/fares/x"), stopped(6, 2));
    assert_eq!(console.remove_directory(1, "/fares/x"), stopped(6, 2));
    assert_eq!(console.link(1, "/fares/x", "/fares/y"), stopped(6, 2));
    assert_eq!(console.link(1, "/fares/now", "/x/y"), stopped(6, 1));
    assert_eq!(console.list(1, "/fares/x", 0), Err((6, 2)));
    assert_eq!(console.change_bits(1, "/fares/x", 0), stopped(6, 2));
    assert_eq!(console.stat(1, "/fares/x"), Err((6, 2)));
    assert_eq!(console.execute(1, "/fares/x"), stopped(6, 2));
}

#[test]
fn refusal_7_for_a_name_in_a_plain_file() {
    let mut console = Console::new();
    assert_eq!(console.open(1, "/key/x", 1), stopped(7, 2));
    assert_eq!(console.create(1, "/key/x", 0), stopped(7, 2));
    assert_eq!(console.create(1, "/key/x/y", 0), stopped(7, 2));
    assert_eq!(console.unlink(1, "/fares/now/x"), stopped(7, 3));
    assert_eq!(console.remove_directory(1, "/fares/now/x"), stopped(7, 3));
    assert_eq!(console.link(1, "/fares/now", "/key/x"), stopped(7, 2));
}

#[test]
fn refusal_8_for_the_wrong_kind() {
    let mut console = Console::new();
    for path in ["/", "/fares"] {
        assert_eq!(console.open(0, path, 1), no(8));
        assert_eq!(console.link(0, path, "/x"), no(8));
        assert_eq!(console.execute(0, path), no(8));
    }
    assert_eq!(console.unlink(0, "/fares"), no(8));
    assert_eq!(console.remove_directory(0, "/fares/now"), no(8));
    assert_eq!(console.list(0, "/fares/now", 0), Err((8, 0)));
}

#[test]
fn refusal_9_where_bits_or_ownership_forbid() {
    let mut console = Console::open_policy();
    assert_eq!(console.open(2, "/key", 1), no(9));
    assert_eq!(console.create(2, "/fares/x", 0), no(9));
    assert_eq!(console.make_directory(2, "/fares/x", 0), no(9));
    assert_eq!(console.unlink(2, "/fares/now"), no(9));
    assert_eq!(console.remove_directory(2, "/fares"), no(9));
    assert_eq!(console.link(2, "/fares/now", "/fares/x"), no(9));
    assert_eq!(console.change_bits(2, "/fares/now", 0), no(9));
    assert_eq!(console.execute(2, "/fares/now"), no(9));
    assert_eq!(console.change_bits(1, "/fares", 0o711), Ok(0));
    assert_eq!(console.list(2, "/fares", 0), Err((9, 0)));
}

#[test]
fn refusal_10_where_the_label_forbids() {
    let mut console = Console::new();
    for slot in 0..4 {
        console.set_bits(slot, 0o777);
    }
    assert_eq!(console.open(2, "/fares/now", 2), no(10));
    assert_eq!(console.create(2, "/fares/x", 0), no(10));
    assert_eq!(console.make_directory(2, "/x", 0), no(10));
    assert_eq!(console.unlink(2, "/fares/now"), no(10));
    assert_eq!(console.remove_directory(2, "/fares"), no(10));
    assert_eq!(console.link(2, "/fares/now", "/fares/x"), no(10));
    assert_eq!(console.execute(2, "/key"), no(10));
    assert_eq!(console.change_bits(0, "/key", 0), no(10));
    console.set_label(1, 3);
    assert_eq!(console.list(0, "/fares", 0), Err((10, 0)));
}

#[test]
fn refusal_11_for_a_name_already_there() {
    let mut console = Console::new();
    assert_eq!(console.create(1, "/fares/now", 0), no(11));
    assert_eq!(console.make_directory(1, "/fares/now", 0), no(11));
    assert_eq!(console.create(0, "/fares", 0), no(11));
    assert_eq!(console.link(1, "/fares/now", "/fares/now"), no(11));
    assert_eq!(console.link(1, "/fares/now", "/key"), no(11));
}

#[test]
fn refusal_12_for_a_directory_not_empty() {
    let mut console = Console::new();
    assert_eq!(console.remove_directory(0, "/fares"), no(12));
    assert_eq!(console.unlink(0, "/fares/now"), Ok(0));
    assert_eq!(console.remove_directory(0, "/fares"), Ok(0));
}

#[test]
fn refusal_13_for_want_of_an_open_file() {
    let mut console = Console::new();
    for process in [2, 3, 4, 5] {
        assert_eq!(console.fork(2), Ok(process + 1));
    }
    for process in 2..6 {
        for descriptor in 0..8 {
            assert_eq!(console.open(process, "/fares/now", 1), Ok(descriptor));
        }
    }
    assert_eq!(console.open(6, "/fares/now", 1), no(13));
    assert_eq!(console.open(1, "/fares/now", 10), no(13));
    assert_eq!(console.close(2, 3), Ok(0));
    assert_eq!(console.duplicate(2, 0), Ok(3));
    assert_eq!(console.close(5, 7), Ok(0));
    assert_eq!(console.open(6, "/fares/now", 1), Ok(0));
}

#[test]
fn refusal_13_for_want_of_a_directory_entry() {
    let mut console = Console::new();
    for slot in 4..19 {
        assert_eq!(console.create(1, &format!("/fares/{slot}"), 0), Ok(slot));
    }
    assert_eq!(console.create(1, "/fares/x", 0), no(13));
    assert_eq!(console.make_directory(1, "/fares/x", 0), no(13));
    assert_eq!(console.link(1, "/fares/now", "/fares/x"), no(13));
    assert_eq!(console.unlink(1, "/fares/7"), Ok(0));
    assert_eq!(console.create(1, "/fares/x", 0), Ok(7));
}

#[test]
fn refusal_14_for_a_file_past_512_bytes() {
    let mut console = Console::new();
    assert_eq!(console.open(1, "/fares/now", 2), Ok(0));
    assert_eq!(console.write(1, 0, &[7; 513]), no(14));
    assert_eq!(console.write(1, 0, &[7; 70_000]), no(14));
    assert_eq!(console.write(1, 0, &[7; 512]), Ok(512));
    assert_eq!(console.write(1, 0, b"x"), no(14));
}
