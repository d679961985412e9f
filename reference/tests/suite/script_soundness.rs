//! When a run asks whether the tables are sound: once, at its start.

use crate::console::{Console, FILE_KIND, FILE_LENGTH};
use crate::script::{block, lines, script, Block};
use reference::{Reason, Replayed};

fn damage(console: &mut Console) {
    console.set_field(3, FILE_LENGTH, 513);
}

fn repair(console: &mut Console) {
    console.set_field(3, FILE_LENGTH, 4);
}

/// Calls of which some are refused and some change the store.
fn day() -> Vec<Block> {
    vec![
        block(1, 1).path("/fares/now").number(11),
        block(1, 12).data("3.10"),
        block(1, 4).path("/fares/now"),
        block(1, 11).number(4),
        block(1, 15),
        block(3, 10),
        block(1, 16),
        block(0, 2).path("/fares/now").number(0o644),
    ]
}

/// What the calls give when each is a run of its own, with a test of its own.
fn one_by_one(console: &mut Console, blocks: &[Block]) -> String {
    blocks
        .iter()
        .map(|block| console.scripted(block.clone()))
        .collect()
}

#[test]
fn one_test_gives_the_answers_of_a_test_at_each_call() {
    let (mut whole, mut parts) = (Console::new(), Console::new());
    assert_eq!(whole.answers(&day()), one_by_one(&mut parts, &day()));
    assert_eq!(whole, parts);
    assert!(whole.is_sound());

    damage(&mut whole);
    damage(&mut parts);
    let before = whole.clone();
    let refused = lines(1, 0, b"").repeat(day().len());
    assert_eq!(whole.answers(&day()), refused);
    assert_eq!(one_by_one(&mut parts, &day()), refused);
    assert_eq!((&whole, &parts), (&before, &before));
}

#[test]
fn a_resumed_run_tests_again() {
    let text = script(&day());
    let mut console = Console::new();
    let (done, first) = console.replay(&text, 2, 10_000);
    assert_eq!((done.calls, done.reason), (2, Reason::Allowance));
    let mut next = done.next;

    damage(&mut console);
    let (done, second) = console.replay(&text[next..], 1, 10_000);
    assert_eq!(second, lines(1, 0, b""));
    assert_eq!((done.calls, done.reason), (1, Reason::Allowance));
    next += done.next;

    repair(&mut console);
    let (done, third) = console.replay(&text[next..], 10, 10_000);
    assert_eq!((done.calls, done.reason), (5, Reason::End));

    let mut without = day();
    without.remove(2); // the one that was refused
    let mut other = Console::new();
    assert_eq!(first + &third, other.answers(&without));
    assert_eq!(console, other);
}

/// Each stop of a run on tables that are not sound, with the answer 1 for
/// every call before it.
#[test]
fn the_stops_are_those_on_sound_tables() {
    let call = block(1, 15).text();
    let twice = call.repeat(2);
    let broken = [&twice[..], b"proc="].concat();
    let answer = lines(1, 0, b"");
    for (text, allowance, size, calls, reason) in [
        (&b""[..], 0, 0, 0, Reason::End),
        (&twice, 2, 1000, 2, Reason::End),
        (&twice, 0, 1000, 0, Reason::Allowance),
        (&twice, 1, 1000, 1, Reason::Allowance),
        (&broken, 9, 1000, 2, Reason::Broken),
        (b"proc=", 9, 0, 0, Reason::Broken),
        (&twice, 9, answer.len() - 1, 0, Reason::Room),
        (&twice, 9, 2 * answer.len() - 1, 1, Reason::Room),
    ] {
        let mut console = Console::new();
        console.set_field(0, FILE_KIND, 4);
        let before = console.clone();
        let (stopped, answers) = console.replay(text, allowance, size);
        let expected = Replayed {
            calls,
            next: calls as usize * call.len(),
            written: calls as usize * answer.len(),
            reason,
        };
        assert_eq!(stopped, expected);
        assert_eq!(answers, answer.repeat(calls as usize));
        assert_eq!(console, before);
    }
}
