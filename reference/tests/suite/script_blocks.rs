//! Blocks that are broken, and some that are not.

use crate::console::Console;
use crate::script::{assert_broken, block, lines, Block};
use reference::Reason;

/// A call that is granted.
fn whole() -> Block {
    block(1, 1).path("/fares/now").number(1)
}

/// The granted call with another text for one of its lines.
fn with_line(index: usize, line: &[u8]) -> Vec<u8> {
    let mut lines = whole().lines();
    lines[index] = line.to_vec();
    lines.concat()
}

const KEYS: [&str; 6] = ["proc", "call", "fd", "arg", "path", "data"];

/// What may stand after each key in the granted call.
const TEXTS: [&str; 6] = ["1", "1", "0", "1", "/fares/now", ""];

#[test]
fn the_whole_block_is_granted() {
    assert_eq!(Console::new().scripted(whole()), lines(0, 0, b""));
    for (index, (key, text)) in KEYS.iter().zip(TEXTS).enumerate() {
        let line = format!("{key}={text}\n");
        assert_eq!(with_line(index, line.as_bytes()), whole().text());
    }
}

#[test]
fn a_wrong_key() {
    for (index, (key, text)) in KEYS.iter().zip(TEXTS).enumerate() {
        let upper = key.to_uppercase();
        let wrong = [
            format!("{upper}={text}\n"),
            format!("{key}{text}\n"),
            format!("{key}:{text}\n"),
            format!("{key} ={text}\n"),
            format!(" {key}={text}\n"),
            format!("x{key}={text}\n"),
            format!("\r{key}={text}\n"),
            format!("={text}\n"),
            format!("{text}\n"),
            format!("\n{key}={text}\n"),
            format!("{key}\n={text}\n"),
            format!("{key}={text}\n\n"),
            String::from("\n"),
            String::new(),
        ];
        for line in wrong {
            // An empty line after the last one stands before the next block.
            if index < 5 || line != "data=\n\n" {
                assert_broken(&with_line(index, line.as_bytes()));
            }
        }
    }
}

#[test]
fn lines_in_another_order_or_twice() {
    for first in 0..6 {
        for second in 0..first {
            let mut lines = whole().lines();
            lines.swap(first, second);
            assert_broken(&lines.concat());
        }
        let mut lines = whole().lines().to_vec();
        lines.insert(first, lines[first].clone());
        // The last line, twice, is a whole block and a broken one.
        if first < 5 {
            assert_broken(&lines.concat());
        }
    }
}

#[test]
fn a_line_without_its_end() {
    for (index, line) in whole().lines().iter().enumerate() {
        let cut = &line[..line.len() - 1];
        assert_broken(&with_line(index, cut));
        for other in [&b"\r"[..], b"\0", b" ", b";"] {
            assert_broken(&with_line(index, &[cut, other].concat()));
        }
    }
}

#[test]
fn a_block_cut_short_anywhere() {
    let text = whole().text();
    for length in 1..text.len() {
        assert_broken(&text[..length]);
        let mut console = Console::new();
        let script = [&text[..], &text[..length]].concat();
        let (replayed, answers) = console.replay(&script, 9, 1000);
        assert_eq!((replayed.calls, replayed.next), (1, text.len()));
        assert_eq!(replayed.reason, Reason::Broken);
        assert_eq!(answers, lines(0, 0, b""));
    }
}

#[test]
fn numbers_that_are_not_decimal_or_too_high() {
    let wrong = [
        "",
        "00",
        "01",
        "007",
        "+1",
        "-1",
        "-0",
        " 1",
        "1 ",
        "1\r",
        "1.0",
        "1e1",
        "0x1",
        "a",
        "1a",
        "1_0",
        "1,000",
        "65536",
        "65537",
        "99999",
        "100000",
        "4294967297",
        "18446744073709551617",
        "340282366920938463463374607431768211457",
        "\u{661}",
        "1\0",
    ];
    for (index, key) in KEYS[..4].iter().enumerate() {
        for text in wrong {
            let line = format!("{key}={text}\n");
            assert_broken(&with_line(index, line.as_bytes()));
        }
        assert_broken(&with_line(index, format!("{key}=\u{ff}\n").as_bytes()));
        assert_broken(&with_line(index, &[key.as_bytes(), b"=\xff\n"].concat()));
    }
}

#[test]
fn data_that_is_not_lower_case_hex_in_pairs() {
    let wrong = [
        "0", "a", "000", "A0", "0A", "FF", "fF", "g0", "0g", "0x00", " 00", "00 ", "0 0", "00\r",
        "-1", "+1", "/0", ":0", "`0", "\u{e9}",
    ];
    // A write, both links and a rename use their data, an unknown call uses everything,
    // and an open uses none.
    for call in [12, 6, 18, 20, 0, 21, 300, 1] {
        for data in wrong {
            let mut lines = block(1, call).lines();
            lines[5] = format!("data={data}\n").into_bytes();
            assert_broken(&lines.concat());
        }
    }
}

/// Whether each call uses descriptor, number, path and data.
const USES: [(u32, [bool; 4]); 23] = [
    (1, [false, true, true, false]),
    (2, [false, true, true, false]),
    (3, [false, true, true, false]),
    (4, [false, false, true, false]),
    (5, [false, false, true, false]),
    (6, [false, false, true, true]),
    (7, [false, true, true, false]),
    (8, [false, true, true, false]),
    (9, [false, false, true, false]),
    (10, [true, false, false, false]),
    (11, [true, true, false, false]),
    (12, [true, false, false, true]),
    (13, [true, true, false, false]),
    (14, [true, false, false, false]),
    (15, [false, false, false, false]),
    (16, [false, false, false, false]),
    (17, [false, false, true, false]),
    (18, [false, false, true, true]),
    (19, [false, true, true, false]),
    (20, [false, false, true, true]),
    (0, [true; 4]),
    (21, [true; 4]),
    (65_535, [true; 4]),
];

#[test]
fn an_unused_part_that_is_set() {
    for (call, uses) in USES {
        for process in [1, 7, 256] {
            let plain = block(process, call);
            Console::new().scripted(plain.clone());
            let set = [
                plain.clone().descriptor(1),
                plain.clone().number(1),
                plain.clone().path("/"),
                plain.clone().data("/"),
            ];
            for (block, used) in set.into_iter().zip(uses) {
                if used {
                    Console::new().scripted(block);
                } else {
                    assert_broken(&block.text());
                }
            }
        }
    }
}

#[test]
fn every_value_of_an_unused_part_but_0_and_empty() {
    for number in [1, 255, 256, 65_535] {
        assert_broken(&whole().descriptor(number).text());
        assert_broken(&block(1, 15).number(number).text());
    }
    for text in [&b"\0"[..], b" ", b"0"] {
        assert_broken(&block(1, 15).path(text).text());
        assert_broken(&block(1, 15).data(text).text());
    }
}

#[test]
fn an_unknown_call_is_3_after_2() {
    for call in [0, 21, 22, 255, 256, 257, 273, 65_535] {
        let full = |process| {
            block(process, call)
                .descriptor(9)
                .number(9)
                .path("no path")
                .data([0; 600])
        };
        let mut console = Console::new();
        assert_eq!(console.scripted(block(1, call)), lines(3, 0, b""));
        assert_eq!(console.scripted(full(1)), lines(3, 0, b""));
        assert_eq!(console.scripted(full(3)), lines(2, 0, b""));
        assert_eq!(console.scripted(full(257)), lines(2, 0, b""));
        assert_eq!(console, Console::new());
    }
}
