//! Renames in scripts.

use crate::console::Console;
use crate::script::{assert_broken, block, lines, Block};
use reference::Reason;

fn rename(old: &str, new: impl AsRef<[u8]>) -> Block {
    block(1, 20).path(old).data(new)
}

#[test]
fn the_lines_of_a_rename() {
    let script = b"proc=1\ncall=20\nfd=0\narg=0\npath=/fares/now\ndata=2f66617265732f6f6c64\n\
        proc=2\ncall=7\nfd=0\narg=0\npath=/fares\ndata=\n\
        proc=1\ncall=20\nfd=0\narg=0\npath=/fares/now\ndata=2f66617265732f6f6c64\n";
    let mut console = Console::new();
    let (replayed, answers) = console.replay(script, 9, 1000);
    assert_eq!((replayed.calls, replayed.reason), (3, Reason::End));
    assert_eq!(
        answers,
        "answer=0\nvalue=0\ndata=\n\
        answer=0\nvalue=1\ndata=6f6c64\n\
        answer=6\nvalue=0\ndata=\n"
    );
    let mut direct = Console::new();
    assert_eq!(direct.rename(1, "/fares/now", "/fares/old"), Ok(0));
    assert_eq!(console, direct);
}

#[test]
fn broken_blocks() {
    let whole = rename("/fares/now", "/fares/old");
    for number in [1, 20, 65_535] {
        assert_broken(&whole.clone().number(number).text());
        assert_broken(&whole.clone().descriptor(number).text());
        // The form is judged before the process.
        let free = Block {
            process: 7,
            ..whole.clone()
        };
        assert_broken(&free.number(number).text());
    }
    for data in ["2", "2F", "2f6", "/fares/old", "2f ", " 2f", "0x2f"] {
        let mut lines = whole.lines();
        lines[5] = format!("data={data}\n").into_bytes();
        assert_broken(&lines.concat());
    }
    for length in 1..whole.text().len() {
        assert_broken(&whole.text()[..length]);
    }
}

#[test]
fn refusals() {
    let blocks = [
        rename("", "/fares/x"),
        rename("/fares/now", ""),
        rename("", ""),
        rename("/", "/x"),
        rename("/fares/now", "/"),
        rename("/fares/now", [b'/'; 65]),
        rename("/fares/now", vec![b'/'; 70_000]),
        rename("/fares/now", "/fares/\0"),
        rename("/fares/no", "/fares/x"),
        rename("/fares/now", "/key/x"),
        rename("/fares/now", "/fares/now"),
        rename("/fares/now", "/x"),
        block(0, 20).path("/fares").data("/fares/x"),
        block(7, 20).path("/fares/now").data("/fares/x"),
        block(256, 20),
    ];
    let expected: String = [3, 3, 3, 3, 3, 3, 3, 3, 6, 7, 11, 9, 8, 2, 2]
        .map(|refusal| lines(refusal, 0, b""))
        .concat();
    let mut console = Console::new();
    assert_eq!(console.answers(&blocks), expected);
    assert_eq!(console, Console::new());
}

/// The second path is in hex, so that byte 10 does not end a line.
#[test]
fn a_new_name_may_hold_byte_10() {
    let mut console = Console::new();
    let renamed = console.scripted(rename("/fares/now", "/fares/a\nb"));
    assert_eq!(renamed, lines(0, 0, b""));
    let list = block(1, 7).path("/fares");
    assert_eq!(console.scripted(list), lines(0, 1, b"a\nb"));
}

#[test]
fn a_rename_without_room_is_not_made() {
    let text = rename("/fares/now", "/fares/old").text();
    let size = lines(0, 0, b"").len();
    let mut console = Console::new();
    let (replayed, _) = console.replay(&text, 1, size - 1);
    assert_eq!((replayed.calls, replayed.reason), (0, Reason::Room));
    assert_eq!(console, Console::new());
    let (replayed, _) = console.replay(&text, 1, size);
    assert_eq!((replayed.calls, replayed.reason), (1, Reason::End));
    assert!(console.stat(2, "/fares/old").is_ok());
}
