//! The answers of scripted calls.

use crate::console::{Console, FILE_GROUP, FILE_LENGTH, FILE_OWNER, PROCESS_WIDTH};
use crate::script::{block, lines, script, Block};
use reference::{Reason, Replayed};

const EXAMPLE: &[u8] = b"proc=2\ncall=1\nfd=0\narg=1\npath=/fares/now\ndata=\n\
    proc=2\ncall=11\nfd=0\narg=16\npath=\ndata=\n";
const EXAMPLE_ANSWERS: &str = "answer=0\nvalue=0\ndata=\nanswer=0\nvalue=5\ndata=322e34300a\n";

fn open(process: u32, path: &str, mode: u32) -> Block {
    block(process, 1).path(path).number(mode)
}

fn read(process: u32, size: u32) -> Block {
    block(process, 11).number(size)
}

#[test]
fn the_example_of_the_paper() {
    let mut console = Console::new();
    let (replayed, answers) = console.replay(EXAMPLE, 2, EXAMPLE_ANSWERS.len());
    let expected = Replayed {
        calls: 2,
        next: EXAMPLE.len(),
        written: EXAMPLE_ANSWERS.len(),
        reason: Reason::End,
    };
    assert_eq!(replayed, expected);
    assert_eq!(answers, EXAMPLE_ANSWERS);
    assert_eq!(console.open_file(0), [2, 1, 5, 1]);
    let blocks = [open(2, "/fares/now", 1), read(2, 16)];
    assert_eq!(script(&blocks), EXAMPLE);
}

#[test]
fn a_read_shows_its_bytes_and_no_more() {
    let mut console = Console::new();
    console.scripted(open(2, "/fares/now", 1));
    assert_eq!(console.scripted(read(2, 0)), lines(0, 0, b""));
    assert_eq!(console.scripted(read(2, 2)), lines(0, 2, b"2."));
    assert_eq!(console.scripted(read(2, 512)), lines(0, 3, b"40\n"));
    assert_eq!(console.scripted(read(2, 512)), lines(0, 0, b""));
}

#[test]
fn the_longest_answer() {
    let mut console = Console::new();
    let bytes: Vec<u8> = (0..512).map(|byte| byte as u8).collect();
    console.set_bytes(2, &bytes);
    console.set_field(2, FILE_LENGTH, 512);
    console.scripted(open(2, "/fares/now", 1));
    let expected = lines(0, 512, &bytes);
    let script = read(2, 512).text();
    let (replayed, _) = console.replay(&script, 1, expected.len() - 1);
    assert_eq!(replayed.reason, Reason::Room);
    let (replayed, answers) = console.replay(&script, 1, expected.len());
    assert_eq!((replayed.reason, answers), (Reason::End, expected));
}

#[test]
fn a_read_of_more_than_512_is_3_after_2_and_before_4() {
    for size in [513, 600, 65_535] {
        let mut console = Console::new();
        console.scripted(open(2, "/fares/now", 1));
        assert_eq!(console.scripted(read(2, size)), lines(3, 0, b""));
        assert_eq!(console.scripted(read(5, size)), lines(2, 0, b""));
        let not_held = read(2, size).descriptor(1);
        assert_eq!(console.scripted(not_held), lines(3, 0, b""));
        assert_eq!(console.open_file(0), [2, 1, 0, 1]);
    }
    let mut console = Console::new();
    assert_eq!(console.scripted(read(2, 512)), lines(4, 0, b""));
}

#[test]
fn a_listed_name() {
    let mut console = Console::new();
    let list = |index| block(2, 7).path("/").number(index);
    assert_eq!(console.scripted(list(0)), lines(0, 1, b"fares"));
    assert_eq!(console.scripted(list(1)), lines(0, 1, b"key"));
    assert_eq!(console.scripted(list(2)), lines(0, 1, b"rom"));
    assert_eq!(console.scripted(list(3)), lines(0, 0, b""));
    assert_eq!(console.scripted(list(65_535)), lines(0, 0, b""));
}

#[test]
fn stat_is_16_bytes_little_end_first() {
    let mut console = Console::new();
    let mut stat = |path: &str| console.scripted(block(1, 9).path(path));
    assert_eq!(
        stat("/fares/now"),
        "answer=0\nvalue=0\ndata=010a000100e401000500010000000000\n"
    );
    assert_eq!(
        stat("/key"),
        "answer=0\nvalue=0\ndata=010a000100c001030400010000000000\n"
    );
    assert_eq!(
        stat("/"),
        "answer=0\nvalue=0\ndata=0200000100ed01000200000000000000\n"
    );
    assert_eq!(stat("/no"), lines(6, 0, b""));
}

#[test]
fn the_widths_of_stat() {
    let mut console = Console::new();
    console.set_field(2, FILE_OWNER, 0xfffe);
    console.set_field(2, FILE_GROUP, 0xfdfc);
    console.set_label(2, 15);
    console.policy[16 + 15] = 7;
    console.set_bytes(2, &[7; 512]);
    console.set_field(2, FILE_LENGTH, 0x0200);
    console.set_version(2, 0x89ab_cdef);
    assert_eq!(
        console.scripted(block(1, 9).path("/fares/now")),
        "answer=0\nvalue=0\ndata=01fefffcfde4010f00020100efcdab89\n"
    );
}

#[test]
fn the_other_calls_use_their_parts() {
    let blocks = [
        block(1, 2).path("/fares/x").number(0o766),
        block(1, 3).path("/fares/d").number(0o777),
        block(1, 6).path("/fares/x").data("/fares/d/y"),
        block(1, 8).path("/fares/x").number(0o744),
        open(1, "/fares/x", 3),
        block(1, 14).descriptor(0),
        block(1, 12).descriptor(1).data([0, 10, 255]),
        block(1, 13).descriptor(0).number(1),
        block(1, 11).descriptor(1).number(9),
        block(1, 10).descriptor(1),
        block(1, 15),
        block(3, 17).path("/fares/x"),
        block(3, 16),
        block(1, 4).path("/fares/x"),
        block(1, 20).path("/fares/d/y").data("/fares/d/z"),
        block(1, 4).path("/fares/d/z"),
        block(1, 5).path("/fares/d"),
    ];
    let values = [4, 5, 0, 0, 0, 1, 3, 1, 2, 0, 3, 0, 0, 0, 0, 0, 0];
    let expected: String = values
        .iter()
        .enumerate()
        .map(|(index, &value)| lines(0, value, if index == 8 { &[10, 255] } else { b"" }))
        .collect();
    let mut console = Console::new();
    assert_eq!(console.answers(&blocks), expected);
    assert!(console.is_sound());
}

#[test]
fn refusals_have_value_0_no_data_and_no_stop_number() {
    let blocks = [
        open(2, "/fares/now", 2),
        open(0, "/key", 1),
        block(2, 9).path("/fares/now/x"),
        block(2, 9).path("/fares/no"),
        block(2, 12).data("x"),
        block(2, 9),
        block(1, 6).path("/fares/now"),
    ];
    let expected: String = [9, 10, 7, 6, 4, 3, 3]
        .map(|refusal| lines(refusal, 0, b""))
        .concat();
    assert_eq!(Console::new().answers(&blocks), expected);
}

#[test]
fn paths_and_data_of_any_length() {
    let mut console = Console::new();
    let slashes = [b'/'; 70_000];
    let root = console.scripted(block(2, 9).path("/"));
    assert_eq!(console.scripted(block(2, 9).path(&slashes[..64])), root);
    for length in [65, 300, 70_000] {
        let stat = block(2, 9).path(&slashes[..length]);
        assert_eq!(console.scripted(stat), lines(3, 0, b""));
        let link = block(1, 6).path("/fares/now").data(&slashes[..length]);
        assert_eq!(console.scripted(link), lines(3, 0, b""));
    }
    let write = |length| block(1, 12).data(vec![7; length]);
    assert_eq!(console.scripted(write(70_000)), lines(4, 0, b""));
    console.scripted(open(1, "/fares/now", 2));
    assert_eq!(console.scripted(write(513)), lines(14, 0, b""));
    assert_eq!(console.scripted(write(70_000)), lines(14, 0, b""));
    assert_eq!(console.scripted(write(512)), lines(0, 512, b""));
}

#[test]
fn a_path_is_taken_as_it_stands_up_to_byte_10() {
    let mut console = Console::new();
    let name = b"/fares/a=\r\xff \t";
    let create = block(1, 2).path(name);
    assert_eq!(console.scripted(create), lines(0, 4, b""));
    let list = block(1, 7).path("/fares").number(0);
    assert_eq!(console.scripted(list), lines(0, 1, &name[7..]));
    let with_0 = block(1, 2).path(b"/fares/a\0");
    assert_eq!(console.scripted(with_0), lines(3, 0, b""));
}

/// Its name is written in hex, so that byte 10 does not end a line.
#[test]
fn a_second_path_may_hold_byte_10() {
    let mut console = Console::new();
    let link = block(1, 6).path("/fares/now").data("/fares/a\nb");
    assert_eq!(console.scripted(link), lines(0, 0, b""));
    let list = block(1, 7).path("/fares").number(0);
    assert_eq!(console.scripted(list), lines(0, 1, b"a\nb"));
}

#[test]
fn every_unbroken_block_on_unsound_tables_is_answered_1() {
    let unsound: [fn(&mut Console); 4] = [
        |console| console.set_field(2, FILE_LENGTH, 513),
        |console| console.policy[0] = 8,
        |console| console.processes.truncate(8 * PROCESS_WIDTH - 1),
        |console| console.contents.clear(),
    ];
    let blocks = [
        open(2, "/fares/now", 1),
        read(2, 65_535),
        block(300, 15),
        block(2, 300).descriptor(5).number(5).path("x").data("x"),
    ];
    for damage in unsound {
        let mut console = Console::new();
        damage(&mut console);
        let before = console.clone();
        assert_eq!(console.answers(&blocks), lines(1, 0, b"").repeat(4));
        let (replayed, _) = console.replay(&script(&blocks), 9, 30);
        assert_eq!((replayed.calls, replayed.reason), (1, Reason::Room));
        let (replayed, _) = console.replay(b"x\n", 9, 99);
        assert_eq!((replayed.calls, replayed.reason), (0, Reason::Broken));
        assert_eq!(console, before);
    }
}
