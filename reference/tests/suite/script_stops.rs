//! Why and where a run stops, and how one goes on.

use crate::console::Console;
use crate::script::{block, lines, script, Block, UNTOUCHED};
use reference::{Reason, Replayed};

fn replayed(calls: u32, next: usize, written: usize, reason: Reason) -> Replayed {
    Replayed {
        calls,
        next,
        written,
        reason,
    }
}

/// Calls whose answers differ in length.
fn day() -> Vec<Block> {
    vec![
        block(1, 1).path("/fares/now").number(3),
        block(1, 11).number(3),
        block(1, 7).path("/").number(0),
        block(1, 12).data("95"),
        block(9, 15),
        block(1, 21).number(5),
        block(1, 13).number(500),
        block(1, 2).path("/fares/x").number(4),
        block(1, 9).path("/fares/now"),
        block(1, 13).number(0),
        block(1, 11).number(512),
        block(1, 4).path("/fares/now"),
        block(1, 10),
        block(1, 10),
    ]
}

#[test]
fn the_numbers_of_the_reasons() {
    let reasons = [Reason::End, Reason::Allowance, Reason::Broken, Reason::Room];
    assert_eq!(reasons.map(Reason::number), [1, 2, 3, 4]);
}

#[test]
fn an_empty_script_is_at_its_end() {
    for (allowance, size) in [(0, 0), (1, 0), (0, 9), (u32::MAX, 9)] {
        let mut console = Console::new();
        let (stopped, _) = console.replay(b"", allowance, size);
        assert_eq!(stopped, replayed(0, 0, 0, Reason::End));
        assert_eq!(console, Console::new());
    }
}

#[test]
fn no_allowance() {
    for text in [script(&day()), b"broken".to_vec(), b"\n".to_vec()] {
        for size in [0, 1000] {
            let mut console = Console::new();
            let (stopped, _) = console.replay(&text, 0, size);
            assert_eq!(stopped, replayed(0, 0, 0, Reason::Allowance));
            assert_eq!(console, Console::new());
        }
    }
}

#[test]
fn the_first_reason_that_holds_is_given() {
    let call = block(1, 15).text();
    let answer = lines(0, 3, b"").len();
    let length = call.len();
    let mut console = Console::new();
    // The end, with the allowance spent and no room left.
    let (stopped, _) = console.replay(&call, 1, answer);
    assert_eq!(stopped, replayed(1, length, answer, Reason::End));
    // The allowance spent, before a broken block and with no room.
    let broken = [&call[..], b"proc="].concat();
    let (stopped, _) = Console::new().replay(&broken, 1, answer);
    assert_eq!(stopped, replayed(1, length, answer, Reason::Allowance));
    // A broken block, with no room.
    let (stopped, _) = Console::new().replay(&broken, 2, answer);
    assert_eq!(stopped, replayed(1, length, answer, Reason::Broken));
    // No room for a whole block.
    let whole = call.repeat(2);
    let (stopped, _) = Console::new().replay(&whole, 2, answer);
    assert_eq!(stopped, replayed(1, length, answer, Reason::Room));
}

#[test]
fn a_broken_block_is_not_passed_over() {
    let call = block(1, 15).text();
    let text = [&call[..], b"\n", &call[..]].concat();
    let mut console = Console::new();
    let (stopped, answers) = console.replay(&text, 9, 1000);
    let answer = lines(0, 3, b"");
    assert_eq!(
        stopped,
        replayed(1, call.len(), answer.len(), Reason::Broken)
    );
    assert_eq!(answers, answer);
    assert_eq!(console.process(4)[0], 0);
}

#[test]
fn refused_calls_count_against_the_allowance() {
    let call = block(9, 15).text();
    let (stopped, answers) = Console::new().replay(&call.repeat(5), 3, 1000);
    let refused = lines(2, 0, b"");
    let expected = replayed(3, 3 * call.len(), 3 * refused.len(), Reason::Allowance);
    assert_eq!(stopped, expected);
    assert_eq!(answers, refused.repeat(3));
}

/// The byte at which each call of the day begins, the byte at which its
/// answer does, and the store before it; last, where all of them end.
fn stages() -> Vec<(usize, usize, Console)> {
    let mut console = Console::new();
    let mut stages = vec![(0, 0, console.clone())];
    for block in day() {
        let &(begin, written, _) = stages.last().unwrap();
        let answer = console.scripted(block.clone());
        let next = begin + block.text().len();
        stages.push((next, written + answer.len(), console.clone()));
    }
    stages
}

#[test]
fn an_allowance_stops_before_the_next_call() {
    let text = script(&day());
    for (calls, (next, written, store)) in stages().into_iter().enumerate() {
        let mut console = Console::new();
        let (stopped, _) = console.replay(&text, calls as u32, 10_000);
        let at_end = next == text.len();
        let reason = if at_end {
            Reason::End
        } else {
            Reason::Allowance
        };
        assert_eq!(stopped, replayed(calls as u32, next, written, reason));
        assert_eq!(console, store);
    }
}

#[test]
fn every_size_of_the_output() {
    let text = script(&day());
    let stages = stages();
    let whole = Console::new().answers(&day());
    for size in 0..=whole.len() + 1 {
        let fits = |&(_, written, _): &(usize, usize, Console)| written <= size;
        let calls = stages.iter().rposition(fits).unwrap();
        let (next, written, store) = &stages[calls];
        let mut console = Console::new();
        let (stopped, answers) = console.replay(&text, 100, size);
        let at_end = *next == text.len();
        let reason = if at_end { Reason::End } else { Reason::Room };
        assert_eq!(stopped, replayed(calls as u32, *next, *written, reason));
        assert_eq!(answers, whole[..*written]);
        assert_eq!(console, *store);
    }
}

#[test]
fn room_one_byte_short_and_exact() {
    for (call, answer) in [
        (block(2, 1).path("/fares/now").number(1), lines(0, 0, b"")),
        (block(2, 7).path("/").number(0), lines(0, 1, b"fares")),
        (block(2, 9).path("/nowhere"), lines(6, 0, b"")),
        (block(2, 1).path("/fares/now").number(2), lines(9, 0, b"")),
        (block(0, 1).path("/key").number(1), lines(10, 0, b"")),
        (block(1, 16), lines(0, 0, b"")),
    ] {
        let text = call.text();
        let mut console = Console::new();
        let (stopped, _) = console.replay(&text, 1, answer.len() - 1);
        assert_eq!(stopped, replayed(0, 0, 0, Reason::Room));
        assert_eq!(console, Console::new());
        let (stopped, answers) = console.replay(&text, 1, answer.len());
        let done = replayed(1, text.len(), answer.len(), Reason::End);
        assert_eq!((stopped, answers), (done, answer));
    }
}

/// Runs the parts of a script one after another, each into what the ones
/// before have left of the output.
fn in_parts(parts: &[&[u8]]) -> (Console, Vec<u8>) {
    let mut console = Console::new();
    let mut output = vec![UNTOUCHED; 5000];
    let mut written = 0;
    for part in parts {
        let done = console.replay_into(part, 100, &mut output[written..]);
        assert_eq!((done.next, done.reason), (part.len(), Reason::End));
        written += done.written;
    }
    (console, output)
}

#[test]
fn a_script_cut_between_blocks_and_resumed() {
    let text = script(&day());
    let whole = in_parts(&[&text]);
    let cuts: Vec<usize> = stages().into_iter().map(|(next, _, _)| next).collect();
    for &cut in &cuts {
        let (first, rest) = text.split_at(cut);
        assert_eq!(in_parts(&[first, rest]), whole);
    }
    let each: Vec<&[u8]> = cuts
        .windows(2)
        .map(|ends| &text[ends[0]..ends[1]])
        .collect();
    assert_eq!(in_parts(&each), whole);
}

/// A run that was stopped is resumed from where it says the next call begins.
#[test]
fn a_stopped_run_goes_on() {
    let text = script(&day());
    let (store, whole) = in_parts(&[&text]);
    for (allowance, size) in [(1, 5000), (3, 5000), (100, 60), (2, 90)] {
        let mut console = Console::new();
        let (mut output, mut next) = (Vec::new(), 0);
        while next < text.len() {
            let (done, answers) = console.replay(&text[next..], allowance, size);
            assert!(done.calls > 0);
            output.extend(answers.into_bytes());
            next += done.next;
        }
        assert_eq!(output, whole[..output.len()]);
        assert_eq!(whole[output.len()], UNTOUCHED);
        assert_eq!(console, store);
    }
}
