//! Symbolic links in scripts.

use crate::console::Console;
use crate::script::{assert_broken, block, lines, Block};
use reference::Reason;

fn make(path: &str, text: impl AsRef<[u8]>) -> Block {
    block(1, 18).path(path).data(text)
}

fn read(path: &str, size: u32) -> Block {
    block(2, 19).path(path).number(size)
}

#[test]
fn the_lines_of_making_and_reading_one() {
    let script = b"proc=1\ncall=18\nfd=0\narg=0\npath=/fares/today\ndata=2f66617265732f6e6f77\n\
        proc=2\ncall=19\nfd=0\narg=16\npath=/fares/today\ndata=\n\
        proc=2\ncall=9\nfd=0\narg=0\npath=/fares/today\ndata=\n\
        proc=2\ncall=1\nfd=0\narg=1\npath=/fares/today\ndata=\n\
        proc=2\ncall=11\nfd=0\narg=16\npath=\ndata=\n";
    let (replayed, answers) = Console::new().replay(script, 9, 1000);
    assert_eq!((replayed.calls, replayed.reason), (5, Reason::End));
    assert_eq!(
        answers,
        "answer=0\nvalue=4\ndata=\n\
        answer=0\nvalue=10\ndata=2f66617265732f6e6f77\n\
        answer=0\nvalue=0\ndata=030a000100000000 0a00 0100 00000000\n\
        answer=0\nvalue=0\ndata=\n\
        answer=0\nvalue=5\ndata=322e34300a\n"
            .replace(' ', "")
    );
}

#[test]
fn the_size_of_the_buffer() {
    let mut console = Console::new();
    console.scripted(make("/fares/today", "/fares/now"));
    for size in [0, 1, 9, 10, 11, 511, 512] {
        let text = &b"/fares/now"[..10.min(size as usize)];
        let answer = lines(0, text.len() as u32, text);
        assert_eq!(console.scripted(read("/fares/today", size)), answer);
    }
    let longest = [b'/'; 64];
    console.scripted(make("/fares/longest", longest));
    assert_eq!(
        console.scripted(read("/fares/longest", 512)),
        lines(0, 64, &longest)
    );
}

#[test]
fn a_size_over_512_is_3_after_2_and_before_the_walk() {
    for size in [513, 600, 65_535] {
        let mut console = Console::new();
        console.scripted(make("/fares/today", "/fares/now"));
        for path in ["/fares/today", "/fares/now", "/none", ""] {
            assert_eq!(console.scripted(read(path, size)), lines(3, 0, b""));
            let unused = block(5, 19).path(path).number(size);
            assert_eq!(console.scripted(unused), lines(2, 0, b""));
        }
    }
    assert_broken(&read("/fares/today", 65_536).text());
}

#[test]
fn refusals() {
    let blocks = [
        make("/fares/today", "/fares/now"),
        make("/fares/today", "/fares/now"),
        make("/fares/x", ""),
        make("/fares/x", "now"),
        make("/fares/x", [b'/'; 65]),
        make("/fares/x", vec![b'/'; 70_000]),
        make("", "/fares/now"),
        make("/", "/fares/now"),
        make("/x", "/fares/now"),
        read("/fares/now", 9),
        read("/fares/x", 9),
        read("", 9),
        make("/fares/ring", "/fares/ring"),
        block(1, 1).path("/fares/ring").number(1),
        block(1, 6).path("/fares/ring").data("/fares/x"),
        block(7, 18).path("/fares/x").data("/"),
    ];
    let answers = [
        lines(0, 4, b""),
        lines(11, 0, b""),
        lines(3, 0, b""),
        lines(3, 0, b""),
        lines(3, 0, b""),
        lines(3, 0, b""),
        lines(3, 0, b""),
        lines(3, 0, b""),
        lines(9, 0, b""),
        lines(8, 0, b""),
        lines(6, 0, b""),
        lines(3, 0, b""),
        lines(0, 5, b""),
        lines(15, 0, b""),
        lines(8, 0, b""),
        lines(2, 0, b""),
    ];
    assert_eq!(Console::new().answers(&blocks), answers.concat());
}

#[test]
fn broken_blocks() {
    let whole = make("/fares/today", "/fares/now");
    assert_broken(&whole.clone().number(1).text());
    assert_broken(&whole.clone().descriptor(1).text());
    for data in ["2", "2F", "2f6", "/fares/now", "2f ", " 2f", "0x2f"] {
        let mut lines = whole.lines();
        lines[5] = format!("data={data}\n").into_bytes();
        assert_broken(&lines.concat());
    }
    let whole = read("/fares/today", 9);
    assert_broken(&whole.clone().descriptor(1).text());
    assert_broken(&whole.clone().data("/").text());
    assert_broken(&whole.clone().data([0]).text());
    for length in 1..whole.text().len() {
        assert_broken(&whole.text()[..length]);
    }
}

/// The text is in hex, so that byte 10 does not end a line.
#[test]
fn a_text_may_hold_byte_10() {
    let mut console = Console::new();
    let made = console.scripted(make("/fares/today", "/fares/a\nb"));
    assert_eq!(made, lines(0, 4, b""));
    let text = console.scripted(read("/fares/today", 64));
    assert_eq!(text, lines(0, 10, b"/fares/a\nb"));
}

#[test]
fn a_text_without_room_is_not_written() {
    let mut console = Console::new();
    console.scripted(make("/fares/today", "/fares/now"));
    let script = read("/fares/today", 64).text();
    let answer = lines(0, 10, b"/fares/now");
    let (replayed, _) = console.replay(&script, 1, answer.len() - 1);
    assert_eq!((replayed.calls, replayed.reason), (0, Reason::Room));
    let (replayed, answers) = console.replay(&script, 1, answer.len());
    assert_eq!((replayed.reason, answers), (Reason::End, answer));
    let script = make("/fares/x", "/").text();
    let before = console.clone();
    let (replayed, _) = console.replay(&script, 1, 20);
    assert_eq!((replayed.calls, replayed.reason), (0, Reason::Room));
    assert_eq!(console, before);
}
