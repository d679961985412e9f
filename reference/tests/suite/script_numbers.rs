//! High numbers in a script: none is taken modulo 256.

use crate::console::Console;
use crate::script::{assert_broken, block, lines, Block};

const HIGH: [u32; 6] = [8, 255, 256, 257, 258, 65_535];

/// A console on which processes 1 and 2 hold descriptors 0 and 1.
fn holding() -> Console {
    let mut console = Console::new();
    for process in [1, 2] {
        for _ in 0..2 {
            let open = block(process, 1).path("/fares/now").number(1);
            console.scripted(open);
        }
    }
    console
}

#[test]
fn a_high_process_is_not_in_use() {
    for process in HIGH {
        for call in [1, 10, 15, 16, 18, 20, 21] {
            let refused = block(process, call);
            assert_eq!(Console::new().scripted(refused), lines(2, 0, b""));
        }
    }
    assert_broken(&block(65_536, 15).text());
    assert_broken(&block(65_537, 15).text());
}

#[test]
fn a_high_call_is_unknown() {
    for call in [255, 256, 257, 256 + 15, 256 + 16, 256 + 20, 65_535] {
        assert_eq!(Console::new().scripted(block(1, call)), lines(3, 0, b""));
        assert_eq!(Console::new().scripted(block(3, call)), lines(2, 0, b""));
    }
    assert_broken(&block(1, 65_536).text());
    assert_broken(&block(1, 65_536 + 15).text());
}

#[test]
fn a_high_descriptor_is_not_held() {
    for descriptor in HIGH {
        for call in [10, 11, 12, 13, 14] {
            let mut console = holding();
            let refused = block(2, call).descriptor(descriptor);
            assert_eq!(console.scripted(refused), lines(4, 0, b""));
            assert_eq!(console, holding());
        }
    }
    assert_broken(&block(2, 10).descriptor(65_536).text());
    assert_broken(&block(2, 10).descriptor(65_537).text());
}

/// The answer to a call by 1 with each of five numbers, the last too high.
fn by_number(plain: &Block, expected: [String; 4]) {
    for (number, expected) in [255, 256, 257, 65_535].into_iter().zip(expected) {
        let block = plain.clone().number(number);
        assert_eq!(holding().scripted(block), expected, "{plain:?} {number}");
    }
    assert_broken(&plain.clone().number(65_536).text());
    assert_broken(&plain.clone().number(65_537).text());
}

#[test]
fn a_high_mode_or_high_bits() {
    let refused = [3; 4].map(|refusal| lines(refusal, 0, b""));
    by_number(&block(1, 1).path("/fares/now"), refused);
    let up_to_511 = |value| {
        let granted = lines(0, value, b"");
        [granted.clone(), granted.clone(), granted, lines(3, 0, b"")]
    };
    by_number(&block(1, 2).path("/fares/x"), up_to_511(4));
    by_number(&block(1, 3).path("/fares/x"), up_to_511(4));
    by_number(&block(1, 8).path("/fares/now"), up_to_511(0));
}

/// Taken modulo 512, these too would be granted.
#[test]
fn the_bits_next_to_511() {
    for (call, path, value) in [(2, "/fares/x", 4), (3, "/fares/x", 4), (8, "/fares/now", 0)] {
        let with = |bits| Console::new().scripted(block(1, call).path(path).number(bits));
        assert_eq!(with(511), lines(0, value, b""));
        assert_eq!(with(512), lines(3, 0, b""));
        assert_eq!(with(513), lines(3, 0, b""));
    }
}

#[test]
fn a_high_index_position_or_size() {
    let past_the_end = [0; 4].map(|value| lines(0, value, b""));
    by_number(&block(1, 7).path("/fares"), past_the_end);
    let [low, byte, high] = [255, 256, 257].map(|value| lines(0, value, b""));
    by_number(&block(1, 13), [low, byte, high, lines(3, 0, b"")]);
    let all = lines(0, 5, b"2.40\n");
    let sizes = [all.clone(), all.clone(), all, lines(3, 0, b"")];
    by_number(&block(1, 11), sizes);
}

#[test]
fn the_numbers_next_to_512() {
    for (number, seek, read) in [
        (511, lines(0, 511, b""), lines(0, 5, b"2.40\n")),
        (512, lines(0, 512, b""), lines(0, 5, b"2.40\n")),
        (513, lines(3, 0, b""), lines(3, 0, b"")),
    ] {
        assert_eq!(holding().scripted(block(1, 13).number(number)), seek);
        assert_eq!(holding().scripted(block(1, 11).number(number)), read);
    }
}
