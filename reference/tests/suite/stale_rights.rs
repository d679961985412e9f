//! a read, a write and a borrowing read ask the label that the caller has
//! now: 10, after 5 and before 14.

use crate::console::{Console, PROCESS_LABEL};
use crate::script::{block, lines};
use crate::steps::{no, stopped};

/// The label to which programs of label 0 move their callers.
pub const MOVED: usize = 8;

impl Console {
    /// The three prompts and /fares/now, which all may use by its bits and
    /// execute. From the labels of the three processes it moves to a label with
    /// these rights over label 0 and none over others, and from there to 2,
    /// which has 5.
    pub fn moving(rights: u8) -> Console {
        let mut console = Console::talking();
        console.set_bits(2, 0o777);
        console.policy[16 * MOVED] = rights;
        for label in 0..3 {
            console.policy[256 + 16 * label] = MOVED as u8;
        }
        console.policy[256 + 16 * MOVED] = 2;
        console
    }

    /// Process `process` with the file open, then moved to the other label.
    fn moved(process: u8, path: &str, mode: u16, rights: u8) -> Console {
        let mut console = Console::moving(rights);
        assert_eq!(console.open(process, path, mode), Ok(0));
        console.execute_now(process, MOVED);
        console
    }

    /// Executes /fares/now, which must give the process this label.
    pub fn execute_now(&mut self, process: u8, label: usize) {
        assert_eq!(self.execute(process, "/fares/now"), Ok(0));
        let moved = self.process(process.into())[PROCESS_LABEL];
        assert_eq!(moved, label as u32);
    }

    /// That a read and a borrowing read of any size are refused with 10.
    pub fn assert_unread(&mut self, process: u8, descriptor: u8) {
        for size in [0, 1, 16, 512] {
            assert_eq!(self.read(process, descriptor, size), Err((10, 0)));
            assert_eq!(self.borrow(process, descriptor, size as u32), Err(10));
        }
        assert_eq!(self.read(process, descriptor, 600), Err((10, 0)));
    }
}

#[test]
fn a_moved_reader_is_refused_and_the_offset_stays() {
    let mut console = Console::moving(0);
    assert_eq!(console.open(2, "/fares/now", 1), Ok(0));
    assert_eq!(console.read(2, 0, 2), Ok(b"2.".to_vec()));
    console.execute_now(2, MOVED);
    console.assert_unread(2, 0);
    assert_eq!(console.open_file(0), [2, 1, 2, 1]);
    for data in [&b"x"[..], b"", &[1; 600]] {
        assert_eq!(console.write(2, 0, data), no(5));
    }
}

/// They ask nothing of the label, nor do fork and exit.
#[test]
fn seek_duplicate_close_fork_and_exit_are_granted() {
    let mut console = Console::moved(2, "/fares/now", 1, 0);
    assert_eq!(console.seek(2, 0, 3), Ok(3));
    assert_eq!(console.duplicate(2, 0), Ok(1));
    assert_eq!(console.open_file(0), [2, 1, 3, 2]);
    console.assert_unread(2, 1);
    assert_eq!(console.fork(2), Ok(3));
    console.assert_unread(3, 0);
    assert_eq!(console.close(2, 0), Ok(0));
    assert_eq!(console.exit(3), Ok(0));
    assert_eq!(console.close(2, 1), Ok(0));
    assert_eq!(console.open_file(0), [0; 4]);
    assert_eq!(console.stat(2, "/fares"), Err((10, 1)));
}

/// Each mode asks for its direction first, then for that direction's right
/// alone, whatever the other one's is.
#[test]
fn each_direction_asks_its_own_right() {
    for rights in 0..8 {
        for mode in 1..=4 {
            let mut console = Console::moved(1, "/fares/now", mode, rights);
            let expected = |open: bool, right: u8| match (open, rights & right == right) {
                (false, _) => 5,
                (true, false) => 10,
                (true, true) => 0,
            };
            let reading = expected([1, 3].contains(&mode), 4);
            let writing = expected([2, 3, 4].contains(&mode), 2);
            let refusal = |outcome: Result<(), (u32, u32)>| outcome.map_or_else(|no| no.0, |()| 0);
            for size in [0, 2] {
                let read = console.read(1, 0, size).map(drop);
                assert_eq!(refusal(read), reading, "{rights} {mode}");
                let borrowed = console.borrow(1, 0, size as u32).map(drop);
                assert_eq!(borrowed.err().unwrap_or(0), reading);
                let written = console.write(1, 0, &vec![65; size]).map(drop);
                assert_eq!(refusal(written), writing, "{rights} {mode}");
            }
        }
    }
}

#[test]
fn a_label_that_may_only_read_writes_nothing() {
    for mode in [3, 4] {
        let mut console = Console::moved(1, "/fares/now", mode, 4);
        for count in [0, 1, 512, 513, 600] {
            assert_eq!(console.write(1, 0, &vec![1; count]), no(10));
        }
        assert_eq!(console.seek(1, 0, 512), Ok(512));
        assert_eq!(console.write(1, 0, b"x"), no(10));
        assert_eq!(console.seek(1, 0, 0), Ok(0));
        assert_eq!((console.bytes(2), console.version(2)), (&b"2.40\n"[..], 0));
        assert_eq!(console.open_file(0), [2, mode.into(), 0, 1]);
        let (read, borrowed) = match mode {
            3 => (Ok(b"2.".to_vec()), Ok(b"40\n".to_vec())),
            _ => (Err((5, 0)), Err(5)),
        };
        assert_eq!(console.read(1, 0, 2), read);
        assert_eq!(console.borrow(1, 0, 512), borrowed);
    }
}

/// 2, 3, 4 and 5 come before the label, 14 after it.
#[test]
fn the_order_of_refusals() {
    let mut console = Console::moved(1, "/fares/now", 3, 0);
    assert_eq!(console.borrow(5, 0, 513), Err(2));
    assert_eq!(console.borrow(1, 0, 513), Err(3));
    assert_eq!(console.seek(1, 0, 513), no(3));
    for descriptor in [1, 7, 8, 255] {
        assert_eq!(console.read(1, descriptor, 0), Err((4, 0)));
        assert_eq!(console.write(1, descriptor, &[1; 600]), no(4));
        assert_eq!(console.borrow(1, descriptor, 1), Err(4));
    }
    assert_eq!(console.write(1, 0, &[1; 600]), no(10));
    let mut console = Console::moved(1, "/fares/now", 3, 2);
    assert_eq!(console.write(1, 0, &[1; 600]), no(14));
    assert_eq!(console.write(1, 0, b""), Ok(0));
    console.assert_unread(1, 0);
}

/// Writing alone, as label 1 has over /key, and then not even that.
#[test]
fn a_key_that_may_no_longer_be_written() {
    let mut console = Console::moving(7);
    assert_eq!(console.open(1, "/key", 2), Ok(0));
    assert_eq!(console.write(1, 0, b"\x05"), Ok(1));
    assert_eq!(console.read(1, 0, 4), Err((5, 0)));
    console.execute_now(1, MOVED);
    for size in [0, 4] {
        assert_eq!(console.read(1, 0, size), Err((5, 0)));
        assert_eq!(console.borrow(1, 0, size as u32), Err(5));
    }
    for data in [&b"x"[..], b"", &[1; 600]] {
        assert_eq!(console.write(1, 0, data), no(10));
    }
    assert_eq!(console.bytes(3), b"\x05\x02\x03\x04");
    assert_eq!(
        (console.version(3), console.open_file(0)),
        (1, [3, 2, 1, 1])
    );
}

#[test]
fn user_0_is_bound_too() {
    let mut console = Console::moved(0, "/fares/now", 3, 1);
    console.assert_unread(0, 0);
    for data in [&b"x"[..], b"", &[1; 600]] {
        assert_eq!(console.write(0, 0, data), no(10));
    }
    assert_eq!(console.open(0, "/fares/now", 1), no(10));
}

/// A prompt's label is 0, and nobody may write to one.
#[test]
fn prompts_are_asked_as_other_files() {
    for (number, path) in ["/rom/00", "/rom/01", "/rom/02"].into_iter().enumerate() {
        for process in 0..3 {
            let mut console = Console::moved(process, path, 1, 3);
            console.assert_unread(process, 0);
            assert_eq!(console.write(process, 0, b""), no(5));
            assert_eq!(console.open_file(0), [128 + number as u32, 1, 0, 1]);
            assert_eq!(console.close(process, 0), Ok(0));
            let mut console = Console::moved(process, path, 1, 4);
            let whole = crate::prompts::PROMPTS[number].to_vec();
            assert_eq!(console.borrow(process, 0, 512), Ok(whole));
        }
    }
}

/// Reading a symbolic link's text asks nothing but the walk.
#[test]
fn a_links_text_is_still_read() {
    let mut console = Console::moving(1);
    assert_eq!(console.symlink(1, "/fares/today", "/fares/now"), Ok(4));
    assert_eq!(console.open(1, "/fares/today", 1), Ok(0));
    console.execute_now(1, MOVED);
    console.assert_unread(1, 0);
    let text = console.read_symlink(1, "/fares/today", 6);
    assert_eq!(text, Ok(b"/fares".to_vec()));
}

#[test]
fn in_a_script_too() {
    let mut console = Console::moving(0);
    let open = block(2, 1).path("/fares/now").number(1);
    let read = |size| block(2, 11).number(size);
    let answers = console.answers(&[
        open.clone(),
        read(2),
        block(2, 17).path("/fares/now"),
        read(16),
        read(0),
        read(513),
        block(2, 12).data("x"),
        block(2, 13).number(5),
        open,
    ]);
    let refused = |refusal| lines(refusal, 0, b"");
    let expected = [
        lines(0, 0, b""),
        lines(0, 2, b"2."),
        lines(0, 0, b""),
        refused(10),
        refused(10),
        refused(3),
        refused(5),
        lines(0, 5, b""),
        refused(10),
    ];
    assert_eq!(answers, expected.concat());
    assert_eq!(console.open(2, "/fares/now", 1), stopped(10, 1));
}
