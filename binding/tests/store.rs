//! The functions over a small store: what they take, answer and leave.

use mritvelja::layout::*;
use mritvelja::{
    act, call, calls, modes, reasons, refusals, replay, sound, test_console, Request, Tables,
};

const SCRIPT: &[u8] = b"proc=0\ncall=15\nfd=0\narg=0\npath=\ndata=\n";

/// An empty store with one process, of user 0, that may do everything.
fn small_store() -> Tables {
    let mut tables = Tables::empty();
    tables.process_mut(0)[PROCESS_USED] = 1;
    tables.set_rights(0, 0, 7);
    tables
}

fn create(path: &[u8]) -> Request<'_> {
    Request {
        call: calls::CREATE,
        number: 0o644,
        path,
        ..Request::default()
    }
}

#[test]
fn the_test_console_is_sound() {
    assert!(sound(&test_console()));
}

#[test]
fn an_empty_store_is_sound_and_every_other_size_is_not() {
    assert!(sound(&Tables::empty()));
    let spoils: [fn(&mut Tables); 5] = [
        |tables| tables.files.clear(),
        |tables| tables.contents.push(0),
        |tables| tables.open_files.truncate(1),
        |tables| tables.processes = Vec::new(),
        |tables| tables.policy = Vec::new(),
    ];
    for spoil in spoils {
        let mut tables = small_store();
        spoil(&mut tables);
        let before = tables.clone();
        assert!(!sound(&tables));
        let answer = call(&mut tables, &create(b"/a"), &mut []);
        assert_eq!(answer.refusal, refusals::UNSOUND);
        assert_eq!(tables, before);
    }
}

#[test]
fn a_call_with_and_without_the_test_is_the_same() {
    let (mut tested, mut untested) = (small_store(), small_store());
    let open = Request {
        call: calls::OPEN,
        number: modes::BOTH,
        path: b"/a",
        ..Request::default()
    };
    let write = Request {
        call: calls::WRITE,
        data: b"2.40",
        ..Request::default()
    };
    for request in [open, create(b"/a"), open, write] {
        let answer = call(&mut tested, &request, &mut []);
        assert_eq!(answer, act(&mut untested, &request, &mut []));
        assert_eq!(answer.is_granted(), answer.refusal == 0);
        assert_eq!(tested, untested);
    }
    assert_eq!(tested.dirent_name(ROOT, 0), b"a");
    assert_eq!(&tested.block(tested.dirent_slot(ROOT, 0))[..5], b"2.40\0");
    assert_eq!(tested.descriptors(0)[0], 1);
    assert_eq!(tested.open_file(0)[OPEN_OFFSET], 4);
}

#[test]
fn a_path_and_the_data_may_be_the_same_bytes() {
    let mut tables = small_store();
    assert!(call(&mut tables, &create(b"/a"), &mut []).is_granted());
    let path = b"/a";
    let link = Request {
        call: calls::LINK,
        path,
        data: path,
        ..Request::default()
    };
    let answer = call(&mut tables, &link, &mut []);
    assert_eq!(answer.refusal, refusals::NAME_THERE);
}

#[test]
fn a_script_says_how_far_it_came() {
    let (mut tables, mut output) = (small_store(), [0; 64]);
    let none = replay(&mut tables, SCRIPT, 1, &mut []);
    assert_eq!((none.reason, none.calls), (reasons::ROOM, 0));
    let run = replay(&mut tables, SCRIPT, 1, &mut output);
    assert_eq!((run.reason, run.calls), (reasons::END, 1));
    assert_eq!(run.next, SCRIPT.len());
    assert_eq!(&output[..run.written], b"answer=0\nvalue=1\ndata=\n");
    assert!(run.is_last() && !none.is_last());
}

#[test]
fn tables_are_taken_over_in_place() {
    let (mut tables, other) = (Tables::empty(), small_store());
    let files = tables.files.as_ptr();
    tables.clone_from(&other);
    assert_eq!(tables, other);
    assert_eq!(tables.files.as_ptr(), files);
}

fn symlink<'a>(path: &'a [u8], target: &'a [u8]) -> Request<'a> {
    Request {
        call: calls::SYMLINK,
        path,
        data: target,
        ..Request::default()
    }
}

#[test]
fn a_link_is_made_and_read() {
    let mut tables = test_console();
    let answer = call(&mut tables, &symlink(b"/today", b"/fares/now"), &mut []);
    assert_eq!((answer.refusal, answer.value), (refusals::GRANTED, 4));
    assert_eq!(tables.file(4), &[LINK, 0, 1, 0, 0, 10, 1, 0]);
    assert_eq!(tables.bytes(4), b"/fares/now");
    let readlink = Request {
        call: calls::READLINK,
        path: b"/today",
        ..Request::default()
    };
    for size in [64, 10, 3, 0] {
        let mut buffer = vec![7; size];
        let answer = call(&mut tables, &readlink, &mut buffer);
        let count = size.min(10);
        assert_eq!((answer.refusal, answer.value), (0, count as u32));
        assert_eq!(buffer[..count], b"/fares/now"[..count]);
        assert!(buffer[count..].iter().all(|&byte| byte == 7));
    }
}

#[test]
fn a_link_is_followed_and_a_ring_is_not() {
    let mut tables = test_console();
    for (path, target) in [(b"/today", &b"/fares/now"[..]), (b"/again", b"/again")] {
        assert!(call(&mut tables, &symlink(path, target), &mut []).is_granted());
    }
    let mut open = |path| {
        let request = Request {
            call: calls::OPEN,
            number: modes::READ,
            path,
            ..Request::default()
        };
        call(&mut tables, &request, &mut [])
    };
    assert!(open(b"/today").is_granted());
    let answer = open(b"/again");
    assert_eq!((answer.refusal, answer.stop), (refusals::TOO_DEEP, 1));
    assert_eq!(tables.open_file(0)[OPEN_SLOT], 2);
}

#[test]
fn a_name_is_changed_in_its_entry_and_taken_to_another_directory() {
    let mut tables = test_console();
    let mut rename = |path, data| {
        let request = Request {
            call: calls::RENAME,
            path,
            data,
            ..Request::default()
        };
        let answer = call(&mut tables, &request, &mut []);
        (answer.refusal, answer.stop, answer.value)
    };
    assert_eq!(rename(b"/fares/now", b"/fares/then"), (0, 0, 0));
    let there = (refusals::NAME_THERE, 0, 0);
    assert_eq!(rename(b"/fares/then", b"/fares/then"), there);
    let missing = (refusals::NAME_MISSING, 2, 0);
    assert_eq!(rename(b"/key", b"/fares/no/key"), missing);
    assert_eq!(rename(b"/key", b"/fares/key"), (0, 0, 0));
    let names = [0, 1].map(|dirent| tables.dirent_name(1, dirent));
    assert_eq!(names, [&b"then"[..], b"key"]);
    assert_eq!([0, 1].map(|dirent| tables.dirent_slot(1, dirent)), [2, 3]);
    let counted = |slot| [FILE_LENGTH, FILE_VERSION].map(|column| tables.file(slot)[column]);
    assert_eq!([0, 1, 2, 3].map(counted), [[1, 1], [2, 2], [5, 0], [4, 0]]);
}
