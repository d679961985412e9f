//! What fork, exit and execute do.

use crate::console::{Console, FREE, PROCESS_WIDTH};
use crate::steps::no;

#[test]
fn a_child_has_the_same_user_group_label_and_open_files() {
    let mut console = Console::new();
    assert_eq!(console.open(1, "/fares/now", 3), Ok(0));
    assert_eq!(console.duplicate(1, 0), Ok(1));
    assert_eq!(console.open(1, "/key", 2), Ok(2));
    assert_eq!(console.close(1, 0), Ok(0));
    assert_eq!(console.fork(1), Ok(3));
    assert_eq!(console.process(3), console.process(1));
    assert_eq!(console.process(3), [1, 10, 1, 1, 0, 1, 2, 0, 0, 0, 0, 0]);
    assert_eq!(console.open_file(0), [2, 3, 0, 2]);
    assert_eq!(console.open_file(1), [3, 2, 0, 2]);
}

#[test]
fn a_child_is_the_lowest_free_process() {
    let mut console = Console::new();
    for child in 3..8 {
        assert_eq!(console.fork(2), Ok(child));
    }
    assert_eq!(console.fork(2), no(13));
    assert_eq!(console.exit(5), Ok(0));
    assert_eq!(console.exit(0), Ok(0));
    assert_eq!(console.fork(2), Ok(0));
    assert_eq!(console.fork(0), Ok(5));
    assert_eq!(console.process(0)[..4], [1, 20, 1, 2]);
}

#[test]
fn exit_closes_all_and_frees_the_process() {
    let mut console = Console::new();
    assert_eq!(console.open(1, "/fares/now", 1), Ok(0));
    assert_eq!(console.duplicate(1, 0), Ok(1));
    assert_eq!(console.open(1, "/fares/now", 2), Ok(2));
    assert_eq!(console.unlink(1, "/fares/now"), Ok(0));
    assert_eq!(console.exit(1), Ok(0));
    assert_eq!(console.process(1), [0; PROCESS_WIDTH]);
    assert!(console.open_files.iter().all(|&word| word == 0));
    assert_eq!(console.file(2), [FREE, 0, 0, 0, 0, 0, 0, 1]);
    assert_eq!(console.exit(1), no(2));
}

#[test]
fn exit_leaves_a_childs_open_files() {
    let mut console = Console::new();
    assert_eq!(console.open(2, "/fares/now", 1), Ok(0));
    assert_eq!(console.fork(2), Ok(3));
    assert_eq!(console.exit(2), Ok(0));
    assert_eq!(console.open_file(0), [2, 1, 0, 1]);
    assert_eq!(console.read(3, 0, 16), Ok(b"2.40\n".to_vec()));
}

#[test]
fn all_processes_may_exit() {
    let mut console = Console::new();
    for process in 0..3 {
        assert_eq!(console.exit(process), Ok(0));
    }
    for process in 0..8 {
        assert_eq!(console.fork(process), no(2));
    }
}

#[test]
fn execute_moves_the_label_by_the_transition() {
    let mut console = Console::new();
    console.set_bits(2, 0o711);
    console.policy[256 + 16 * 2] = 9;
    assert_eq!(console.open(2, "/fares/now", 1), no(9));
    assert_eq!(console.execute(2, "/fares/now"), Ok(0));
    assert_eq!(console.process(2)[..4], [1, 20, 1, 9]);
    assert_eq!(console.stat(2, "/fares"), Err((10, 1)));
}

#[test]
fn execute_without_a_transition_leaves_the_label() {
    let mut console = Console::new();
    console.policy[256 + 16] = 0; // from 1, where the caller has 2
    console.policy[256 + 16 * 2 + 1] = 0; // by 1, where the file has 0
    console.set_bits(2, 0o711);
    let before = console.clone();
    assert_eq!(console.execute(2, "/fares/now"), Ok(0));
    assert_eq!(console, before);
}

#[test]
fn execute_leaves_user_group_and_descriptors() {
    let mut console = Console::new();
    console.policy[256 + 16] = 2;
    assert_eq!(console.open(1, "/fares/now", 3), Ok(0));
    assert_eq!(console.execute(1, "/fares/now"), Ok(0));
    assert_eq!(console.process(1), [1, 10, 1, 2, 1, 0, 0, 0, 0, 0, 0, 0]);
    assert_eq!(console.read(1, 0, 2), Ok(b"2.".to_vec()));
}

#[test]
fn execute_wants_the_right_by_bits_and_by_label() {
    let mut console = Console::new();
    assert_eq!(console.execute(2, "/fares/now"), no(9));
    assert_eq!(console.execute(2, "/key"), no(9));
    assert_eq!(console.execute(1, "/key"), no(10));
    assert_eq!(console.execute(0, "/fares/now"), Ok(0));
    assert_eq!(console.execute(0, "/fares"), no(8));
    assert_eq!(console.execute(0, "/"), no(8));
}
