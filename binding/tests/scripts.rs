//! Scripts on tables that are sound and on tables that are not: a run tests them
//! once, and each of its calls is answered as if it tested them itself.

use mritvelja::layout::*;
use mritvelja::{reasons, replay, sound, test_console, Replayed, Tables};

const DAY: &[u8] = include_bytes!("../../examples/day.script");
const ROOM: usize = 65_536;
const UNSOUND: &[u8] = b"answer=1\nvalue=0\ndata=\n";

/// Ways to make sound tables unsound: a field, a name, the policy, a table's size.
const SPOILS: [fn(&mut Tables); 9] = [
    |tables| tables.file_mut(2)[FILE_BITS] = 512,
    |tables| tables.file_mut(2)[FILE_LINKS] += 1,
    |tables| tables.contents[CONTENTS_SIZE - 1] = 1,
    |tables| tables.process_mut(2)[PROCESS_USED] = 2,
    |tables| tables.set_rights(15, 15, 8),
    |tables| tables.policy.truncate(POLICY_SIZE - 1),
    |tables| tables.files.truncate(FILES_SIZE - 1),
    |tables| tables.contents.push(0),
    |tables| {
        tables.files.truncate(64 * FILE_WIDTH);
        tables.contents.truncate(64 * BLOCK);
    },
];

fn block(process: u32, call: u32, descriptor: u32, number: u32, path: &str, data: &str) -> String {
    format!(
        "proc={process}\ncall={call}\nfd={descriptor}\narg={number}\npath={path}\ndata={data}\n"
    )
}

/// A run with ample room, and its answers.
fn run(tables: &mut Tables, script: &[u8], allowance: u32) -> (Replayed, Vec<u8>) {
    let mut output = vec![0; ROOM];
    let run = replay(tables, script, allowance, &mut output);
    output.truncate(run.written);
    (run, output)
}

/// Does something with tables made unsound in each way, which must then be as before.
fn on_unsound(mut does: impl FnMut(&mut Tables)) {
    for spoil in SPOILS {
        let mut tables = test_console();
        spoil(&mut tables);
        assert!(!sound(&tables));
        let before = tables.clone();
        does(&mut tables);
        assert_eq!(tables, before);
    }
}

#[test]
fn each_block_on_unsound_tables_is_answered_1_and_counts() {
    let unknown = block(0, 0, 0, 0, "", "");
    let by_nobody = block(7, 15, 0, 0, "", "");
    let good = block(1, 2, 0, 0o644, "/fares/next", "");
    let script = unknown + &by_nobody + &good;
    on_unsound(|tables| {
        let (run, answers) = run(tables, script.as_bytes(), u32::MAX);
        assert_eq!((run.reason, run.calls), (reasons::END, 3));
        assert_eq!(run.next, script.len());
        assert_eq!(answers, UNSOUND.repeat(3));
    });
}

#[test]
fn the_stops_on_unsound_tables_are_as_ever() {
    let good = block(0, 15, 0, 0, "", "");
    let script = good.clone() + "proc=x\n" + &good;
    let answer = UNSOUND.len();
    on_unsound(|tables| {
        let mut stops = |script: &str, allowance, room| {
            let run = replay(tables, script.as_bytes(), allowance, &mut vec![0; room]);
            (run.reason, run.calls, run.next, run.written)
        };
        assert_eq!(stops("", 0, 0), (reasons::END, 0, 0, 0));
        assert_eq!(stops(&script, 0, ROOM), (reasons::ALLOWANCE, 0, 0, 0));
        assert_eq!(stops(&script, 9, answer - 1), (reasons::ROOM, 0, 0, 0));
        let after_one = |reason| (reason, 1, good.len(), answer);
        assert_eq!(stops(&good, 1, answer), after_one(reasons::END));
        assert_eq!(stops(&script, 1, ROOM), after_one(reasons::ALLOWANCE));
        assert_eq!(stops(&script, 9, ROOM), after_one(reasons::BROKEN));
        assert_eq!(stops(&good.repeat(2), 9, answer), after_one(reasons::ROOM));
    });
}

#[test]
fn a_run_after_the_tables_were_damaged_is_answered_1() {
    let (first, rest) = DAY.split_at(run(&mut test_console(), DAY, 20).0.next);
    for spoil in SPOILS {
        let mut tables = test_console();
        assert_eq!(run(&mut tables, first, u32::MAX).0.calls, 20);
        spoil(&mut tables);
        let damaged = tables.clone();
        let (resumed, answers) = run(&mut tables, rest, u32::MAX);
        assert_eq!((resumed.reason, resumed.calls), (reasons::END, 30));
        assert_eq!(answers, UNSOUND.repeat(30));
        assert_eq!(tables, damaged);
    }
}

/// The example day, cut after each number of calls: sound at the cut and at the end.
#[test]
fn the_day_cut_anywhere_leaves_what_it_leaves_whole() {
    let mut whole = test_console();
    let (ended, answers) = run(&mut whole, DAY, u32::MAX);
    assert!(sound(&whole));
    for calls in 0..=ended.calls {
        let mut tables = test_console();
        let (cut, mut both) = run(&mut tables, DAY, calls);
        assert!(sound(&tables));
        both.extend(run(&mut tables, &DAY[cut.next..], u32::MAX).1);
        assert_eq!(both, answers);
        assert_eq!(tables, whole);
    }
}

/// Fills every slot, takes the names of open files, forks and exits.
fn crowd() -> Vec<String> {
    let mut blocks = Vec::new();
    for directory in 0..9 {
        blocks.push(block(0, 3, 0, 0o777, &format!("/d{directory}"), ""));
        for file in 0..17 {
            blocks.push(block(0, 2, 0, 0o777, &format!("/d{directory}/f{file}"), ""));
        }
    }
    for file in 0..9 {
        let path = format!("/d{file}/f0");
        blocks.push(block(0, 1, 0, 3, &path, ""));
        blocks.push(block(0, 12, file, 0, "", "322e3430"));
        blocks.push(block(0, 4, 0, 0, &path, ""));
    }
    for _ in 0..9 {
        blocks.push(block(0, 15, 0, 0, "", ""));
    }
    blocks.push(block(0, 10, 1, 0, "", ""));
    blocks.extend((0..8).rev().map(|process| block(process, 16, 0, 0, "", "")));
    blocks
}

#[test]
fn a_crowded_run_leaves_the_tables_sound() {
    let blocks = crowd();
    let mut stepped = test_console();
    let mut answers = Vec::new();
    for block in &blocks {
        answers.extend(run(&mut stepped, block.as_bytes(), u32::MAX).1);
        assert!(sound(&stepped));
    }
    let mut tables = test_console();
    let (whole, text) = run(&mut tables, blocks.concat().as_bytes(), u32::MAX);
    assert_eq!(whole.calls as usize, blocks.len());
    assert_eq!(text, answers);
    assert_eq!(tables, stepped);
    let granted = text.split(|&byte| byte == b'\n').step_by(3);
    let granted = granted.filter(|&line| line == b"answer=0").count();
    assert!(granted > 130 && granted < blocks.len());
}
