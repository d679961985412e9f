//! The groups of files and processes: where they come from, where they show,
//! and what tables with them are sound.

use crate::console::{
    request, Console, DIRECTORY, FILE_BITS, FILE_GROUP, FILE_OWNER, FILE_WIDTH, LAST_SLOT, PLAIN,
    PROCESS_GROUP, PROCESS_WIDTH,
};
use crate::script::block;
use crate::steps::{no, outcome};

#[test]
fn stat_shows_the_group_after_the_owner() {
    let mut console = Console::new();
    let key = [PLAIN, 10, 1, 448, 3, 4, 1, 0];
    assert_eq!(console.stat(0, "/key"), Ok(key));
    assert_eq!(
        console.scripted(block(0, 9).path("/key")),
        "answer=0\nvalue=0\ndata=010a000100c001030400010000000000\n"
    );
}

#[test]
fn a_scripted_stat_has_32_digits_and_a_refused_one_none() {
    let mut console = Console::new();
    for (path, digits) in [("/", 32), ("/fares", 32), ("/fares/now", 32), ("/no", 0)] {
        let answer = console.scripted(block(2, 9).path(path));
        let (_, data) = answer.trim_end().split_once("data=").unwrap();
        assert_eq!(data.len(), digits, "{path}");
    }
}

#[test]
fn a_new_file_takes_its_callers_group() {
    let mut console = Console::new();
    console.set_group(1, 77);
    assert_eq!(console.create(1, "/fares/x", 0o600), Ok(4));
    assert_eq!(console.file(4), [PLAIN, 10, 77, 384, 0, 0, 1, 0]);
    assert_eq!(console.make_directory(1, "/fares/d", 0o700), Ok(5));
    assert_eq!(console.file(5), [DIRECTORY, 10, 77, 0o700, 0, 0, 1, 0]);
    console.set_group(0, 65_535);
    assert_eq!(console.create(0, "/fares/d/x", 0), Ok(6));
    assert_eq!(console.file(6), [PLAIN, 0, 65_535, 0, 0, 0, 1, 0]);
}

#[test]
fn a_child_has_its_parents_group() {
    let mut console = Console::new();
    console.set_group(1, 77);
    assert_eq!(console.fork(1), Ok(3));
    assert_eq!(console.process(3)[PROCESS_GROUP], 77);
    assert_eq!(console.create(3, "/fares/z", 0o070), Ok(4));
    assert_eq!(console.file(4)[FILE_GROUP], 77);
    assert_eq!(console.open(3, "/fares/z", 1), no(9));
}

#[test]
fn other_calls_leave_a_files_group() {
    let mut console = Console::new();
    console.set_group(0, 5);
    let group = |console: &Console| console.file(2)[FILE_GROUP];
    assert_eq!(console.change_bits(0, "/fares/now", 0o777), Ok(0));
    assert_eq!(console.link(0, "/fares/now", "/x"), Ok(0));
    assert_eq!(console.open(0, "/x", 11), Ok(0));
    assert_eq!(console.write(0, 0, b"3"), Ok(1));
    assert_eq!(console.unlink(0, "/fares/now"), Ok(0));
    assert_eq!(group(&console), 1);
    assert_eq!(console.unlink(0, "/x"), Ok(0));
    assert_eq!(console.close(0, 0), Ok(0));
    assert_eq!(group(&console), 0);
}

#[test]
fn execute_leaves_the_group() {
    let mut console = Console::new();
    console.set_group(1, 77);
    console.policy[256 + 16] = 2;
    assert_eq!(console.execute(1, "/fares/now"), Ok(0));
    assert_eq!(console.process(1)[..4], [1, 10, 77, 2]);
}

/// A group of a user's number, and a user of a group's, are no match.
#[test]
fn users_and_groups_are_not_taken_for_one_another() {
    let mut console = Console::new();
    console.set_field(2, FILE_OWNER, 1);
    console.set_field(2, FILE_GROUP, 20);
    console.set_bits(2, 0o440);
    assert_eq!(console.open(2, "/fares/now", 1), no(9));
    console.set_group(2, 20);
    assert_eq!(console.open(2, "/fares/now", 1), Ok(0));
}

/// Group 0 has nothing of user 0's.
#[test]
fn group_0_is_a_group_as_others_are() {
    let mut console = Console::new();
    console.set_group(2, 0);
    console.set_bits(2, 0o740);
    assert_eq!(console.open(2, "/fares/now", 1), no(9));
    console.set_field(2, FILE_GROUP, 0);
    assert_eq!(console.open(2, "/fares/now", 1), Ok(0));
}

/// That a console with this change is refused whole and left alone.
fn refused(change: impl Fn(&mut Console)) {
    let mut console = Console::new();
    change(&mut console);
    assert!(!console.is_sound());
    let before = console.clone();
    let answer = console.raw(request(0, 9), b"/key", b"", &mut []);
    assert_eq!(outcome(&answer), no(1));
    assert_eq!(console, before);
}

#[test]
fn numbers_out_of_range_are_unsound() {
    refused(|console| console.set_field(2, FILE_BITS, 512));
    refused(|console| console.set_field(2, FILE_GROUP, 65_536));
    refused(|console| console.set_field(2, FILE_OWNER, 65_536));
    refused(|console| console.set_field(LAST_SLOT, FILE_GROUP, 1));
    refused(|console| console.set_group(3, 1));
    refused(|console| console.set_group(1, 65_536));
    refused(|console| console.policy[0] = 8);
}

/// The words of a table without one column of each record.
fn without(words: &[u32], width: usize, column: usize) -> Vec<u32> {
    let columns = (0..width).cycle();
    let kept = words.iter().zip(columns).filter(|(_, at)| *at != column);
    kept.map(|(&word, _)| word).collect()
}

#[test]
fn tables_without_groups_are_of_another_size() {
    let files = |console: &mut Console| {
        console.files = without(&console.files, FILE_WIDTH, FILE_GROUP);
    };
    let processes = |console: &mut Console| {
        console.processes = without(&console.processes, PROCESS_WIDTH, PROCESS_GROUP);
    };
    refused(files);
    refused(processes);
    refused(|console| {
        files(console);
        processes(console);
    });
}
