//! Prompts in scripts.

use crate::console::Console;
use crate::prompts::sixteen;
use crate::script::{block, hex, lines, script, Block};
use reference::Reason;

fn open(path: &str, mode: u32) -> Block {
    block(2, 1).path(path).number(mode)
}

#[test]
fn a_day_with_prompts() {
    let blocks = [
        block(2, 7).path("/").number(2),
        block(2, 7).path("/rom").number(1),
        block(2, 7).path("/rom").number(3),
        open("/rom/00", 1),
        block(2, 11).number(4),
        block(2, 11).number(512),
        block(2, 12).data("x"),
        block(0, 1).path("/rom/00").number(2),
        block(0, 2).path("/rom").number(0),
        block(0, 6).path("/rom/00").data("/x"),
        block(0, 18).path("/say").data("/rom/02"),
        open("/say", 1),
        block(2, 11).descriptor(1).number(5),
        block(2, 17).path("/rom/00"),
    ];
    let expected = [
        lines(0, 1, b"rom"),
        lines(0, 1, b"01"),
        lines(0, 0, b""),
        lines(0, 0, b""),
        lines(0, 4, b"next"),
        lines(0, 5, b" stop"),
        lines(5, 0, b""),
        lines(9, 0, b""),
        lines(11, 0, b""),
        lines(9, 0, b""),
        lines(0, 4, b""),
        lines(0, 1, b""),
        lines(0, 5, b"doors"),
        lines(9, 0, b""),
    ];
    let mut console = Console::talking();
    assert_eq!(console.answers(&blocks), expected.concat());
    assert_eq!(console.open_file(0), [128, 1, 9, 1]);
    assert_eq!(console.open_file(1), [130, 1, 5, 1]);
    assert!(console.is_sound());
}

#[test]
fn stat_of_the_directory_and_a_prompt() {
    let mut console = Console::with_prompts(&sixteen());
    assert_eq!(
        console.scripted(block(2, 9).path("/rom")),
        "answer=0\nvalue=0\ndata=02000000006d01001000010000000000\n"
    );
    assert_eq!(
        console.scripted(block(2, 9).path("/rom/15")),
        "answer=0\nvalue=0\ndata=01000000002401000002010000000000\n"
    );
}

#[test]
fn the_longest_answer_may_be_a_prompts() {
    let mut console = Console::with_prompts(&sixteen());
    console.scripted(open("/rom/15", 1));
    let text = block(2, 11).number(512).text();
    let expected = lines(0, 512, &[255; 512]);
    let (stopped, _) = console.replay(&text, 1, expected.len() - 1);
    assert_eq!(stopped.reason, Reason::Room);
    assert_eq!(console.open_file(0), [143, 1, 0, 1]);
    let (stopped, answers) = console.replay(&text, 1, expected.len());
    assert_eq!((stopped.reason, answers), (Reason::End, expected));
    assert_eq!(console.open_file(0), [143, 1, 512, 1]);
}

#[test]
fn rom_that_is_not_sound_is_answered_1() {
    let blocks = [open("/rom/00", 1), block(2, 11).number(513), block(300, 15)];
    for rom in [&b"\x01"[..], b"\x01\0", &[0; 34]] {
        let mut console = Console::new();
        console.rom = rom.to_vec();
        let before = console.clone();
        assert_eq!(console.answers(&blocks), lines(1, 0, b"").repeat(3));
        assert_eq!(console, before);
    }
}

/// ROM is lent to each run anew, and is judged with what is open then.
#[test]
fn a_run_resumed_with_less_rom() {
    let text = script(&[open("/rom/02", 1), block(2, 11).number(5)]);
    let mut console = Console::talking();
    let (stopped, _) = console.replay(&text, 1, 1000);
    assert_eq!(stopped.reason, Reason::Allowance);
    let rest = &text[stopped.next..];
    let whole = std::mem::take(&mut console.rom);
    let (_, answers) = console.replay(rest, 1, 1000);
    assert_eq!(answers, lines(1, 0, b""));
    console.rom = whole;
    let (_, answers) = console.replay(rest, 1, 1000);
    assert_eq!(answers, lines(0, 5, b"doors"));
}

/// The borrowing read is no call of a script: there is no number for it.
#[test]
fn the_borrowing_read_is_not_scripted() {
    let mut console = Console::talking();
    console.scripted(open("/rom/00", 1));
    for call in [0, 21, 22, 255, 256, 65_535] {
        let answered = console.scripted(block(2, call).number(4));
        assert_eq!(answered, lines(3, 0, b""), "{call}");
    }
    assert_eq!(hex(&console.borrow(2, 0, 4).unwrap()), hex(b"next"));
}
