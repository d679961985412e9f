//! The factory part, and the read that borrows from it or from the contents.

use mritvelja::layout::*;
use mritvelja::{
    borrow_read, call, calls, modes, refusals, replay, sound, test_console, Answer, Request, Tables,
};

/// The part of some prompts.
fn rom(prompts: &[&[u8]]) -> Vec<u8> {
    let stored = |prompt: &&[u8]| [&(prompt.len() as u16).to_le_bytes(), *prompt].concat();
    prompts.iter().flat_map(stored).collect()
}

/// The test console beside the prompts "hello", one of no bytes, and one of 512.
fn console() -> Tables {
    let mut tables = test_console();
    tables.rom = rom(&[b"hello", b"", &[b'x'; BLOCK]]);
    tables
}

fn ask(tables: &mut Tables, call_number: u8, path: &[u8], number: u16) -> Answer {
    let request = Request {
        process: 2,
        call: call_number,
        number,
        path,
        ..Request::default()
    };
    call(tables, &request, &mut [])
}

/// Opens files to be read, descriptors 0 and on.
fn open(tables: &mut Tables, paths: &[&[u8]]) {
    for (path, descriptor) in paths.iter().zip(0..) {
        let answer = ask(tables, calls::OPEN, path, modes::READ);
        assert_eq!((answer.refusal, answer.value), (0, descriptor));
    }
}

/// A borrowing read by process 2, and the offset that it leaves.
fn borrow(tables: &mut Tables, descriptor: u8, count: u32) -> (Result<&[u8], u32>, u32) {
    let word = tables.descriptors(2).get(usize::from(descriptor));
    let open_file = word.map_or(0, |&word| word.saturating_sub(1) as usize);
    let part = borrow_read(
        &tables.files,
        &tables.contents,
        &mut tables.open_files,
        &tables.processes,
        &tables.policy,
        &tables.rom,
        2,
        descriptor,
        count,
    );
    let offset = tables.open_files[OPEN_FILE_WIDTH * open_file + OPEN_OFFSET];
    (part, offset)
}

#[test]
fn prompts_are_files() {
    let mut tables = console();
    assert!(sound(&tables));
    let stat = |tables: &mut Tables, path| ask(tables, calls::STAT, path, 0).fields;
    assert_eq!(
        stat(&mut tables, b"/rom"),
        [DIRECTORY, 0, 0, 0o555, 0, 3, 1, 0]
    );
    assert_eq!(
        stat(&mut tables, b"/rom/00"),
        [PLAIN, 0, 0, 0o444, 0, 5, 1, 0]
    );
    assert_eq!(stat(&mut tables, b"/rom/02")[FILE_LENGTH], 512);
    assert_eq!(stat(&mut tables, b"/")[FILE_LENGTH], 2);
    let listed = ask(&mut tables, calls::LIST, b"/", 2);
    assert_eq!(&listed.name[..listed.name_length as usize], b"rom");
    open(&mut tables, &[b"/rom/00"]);
    assert_eq!(tables.open_file(0), &[ROM_FIRST as u32, 1, 0, 1]);
}

#[test]
fn what_is_no_part_is_refused() {
    let whole = rom(&[&b""[..]; PROMPTS]);
    for part in [&[][..], &whole, b"\0\0", b"\x01\0a"] {
        let mut tables = test_console();
        tables.rom = part.to_vec();
        assert!(sound(&tables), "{part:?}");
    }
    let long = rom(&[&[b'x'; BLOCK + 1]]);
    let more = [&whole[..], b"\0"].concat();
    for part in [b"\0", &b"\x01\0"[..], b"\x01\0ab", &long, &more] {
        let mut tables = test_console();
        tables.rom = part.to_vec();
        let before = tables.clone();
        assert!(!sound(&tables), "{part:?}");
        let answer = ask(&mut tables, calls::STAT, b"/", 0);
        assert_eq!(answer.refusal, refusals::UNSOUND);
        assert_eq!(borrow(&mut tables, 0, 1).0, Err(refusals::UNSOUND));
        let mut output = [0; 64];
        let script = b"proc=2\ncall=9\nfd=0\narg=0\npath=/\ndata=\n";
        let run = replay(&mut tables, script, 1, &mut output);
        assert_eq!(&output[..run.written], b"answer=1\nvalue=0\ndata=\n");
        assert_eq!(tables, before);
    }
}

#[test]
fn a_borrowing_read_is_from_both_memories() {
    let mut tables = console();
    open(&mut tables, &[b"/rom/00", b"/fares/now", b"/rom/02"]);
    for (descriptor, count, bytes, offset) in [
        (0, 3, &b"hel"[..], 3),
        (0, 0, b"", 3),
        (0, 512, b"lo", 5),
        (0, 5, b"", 5),
        (1, 2, b"2.", 2),
        (1, 512, b"40\n", 5),
        (1, 1, b"", 5),
        (2, 512, &[b'x'; BLOCK], 512),
        (2, 512, b"", 512),
    ] {
        let mut read = tables.clone();
        let answer = borrow(&mut tables, descriptor, count);
        assert_eq!(answer, (Ok(bytes), offset), "{descriptor}, {count}");
        assert_same_as_read(&mut read, descriptor, count, bytes);
        assert_eq!(tables, read);
    }
}

/// A read of as many bytes gives the same.
fn assert_same_as_read(tables: &mut Tables, descriptor: u8, count: u32, bytes: &[u8]) {
    let read = Request {
        process: 2,
        call: calls::READ,
        descriptor,
        ..Request::default()
    };
    let mut buffer = vec![0; count as usize];
    let answer = call(tables, &read, &mut buffer);
    assert_eq!((answer.refusal, answer.value), (0, bytes.len() as u32));
    assert_eq!(&buffer[..bytes.len()], bytes);
}

#[test]
fn an_offset_past_the_end_gives_nothing() {
    let mut tables = console();
    // A part that ends with the prompt: the offset lies past all of it.
    tables.rom = rom(&[b"hello"]);
    open(&mut tables, &[b"/rom/00", b"/fares/now"]);
    for open_file in [0, 1] {
        tables.open_file_mut(open_file)[OPEN_OFFSET] = 512;
    }
    for descriptor in [0, 1] {
        assert_eq!(borrow(&mut tables, descriptor, 512), (Ok(&b""[..]), 512));
    }
}

#[test]
fn a_part_is_held_across_a_second_read() {
    let mut tables = console();
    open(&mut tables, &[b"/rom/00", b"/fares/now"]);
    let Tables {
        files,
        contents,
        open_files,
        processes,
        policy,
        rom,
    } = &mut tables;
    let (files, contents, processes) = (&files[..], &contents[..], &processes[..]);
    let mut borrow = |descriptor, count| {
        borrow_read(
            files, contents, open_files, processes, policy, rom, 2, descriptor, count,
        )
        .unwrap()
    };
    let (first, second) = (borrow(0, 3), borrow(0, 512));
    let (third, fourth) = (borrow(1, 3), borrow(1, 512));
    assert_eq!(
        [first, second, third, fourth],
        [&b"hel"[..], b"lo", b"2.4", b"0\n"]
    );
    // They are the lent bytes themselves.
    assert_eq!(first.as_ptr(), rom[2..].as_ptr());
    assert_eq!(third.as_ptr(), contents[2 * BLOCK..].as_ptr());
}

#[test]
fn refusals_of_a_borrowing_read_come_in_order() {
    let mut tables = console();
    open(&mut tables, &[b"/fares/now"]);
    tables.open_file_mut(0)[OPEN_MODE] = modes::WRITE.into();
    let before = tables.clone();
    for (descriptor, count, refusal) in [
        (0, 513, refusals::MALFORMED),
        (5, 513, refusals::MALFORMED),
        (0, u32::MAX, refusals::MALFORMED),
        (5, 512, refusals::NOT_HELD),
        (8, 1, refusals::NOT_HELD),
        (255, 1, refusals::NOT_HELD),
        (0, 512, refusals::WRONG_DIRECTION),
        (0, 0, refusals::WRONG_DIRECTION),
    ] {
        let (part, _) = borrow(&mut tables, descriptor, count);
        assert_eq!(part, Err(refusal), "{descriptor}, {count}");
    }
    assert_eq!(tables, before);
    tables.process_mut(2).fill(0);
    tables.open_file_mut(0).fill(0);
    assert_eq!(borrow(&mut tables, 0, 513).0, Err(refusals::NO_PROCESS));
    tables.files.clear();
    assert_eq!(borrow(&mut tables, 0, 513).0, Err(refusals::UNSOUND));
}
