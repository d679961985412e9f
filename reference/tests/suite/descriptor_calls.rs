//! What the calls on descriptors do.

use crate::console::{request, Console, PROCESS_DESCRIPTOR};
use crate::steps::no;
use reference::Request;

/// A console where process 1 has /fares/now open in the mode, as descriptor 0.
fn opened(mode: u16) -> Console {
    let mut console = Console::new();
    assert_eq!(console.open(1, "/fares/now", mode), Ok(0));
    console
}

#[test]
fn close_drops_the_descriptor_and_then_the_open_file() {
    let mut console = opened(1);
    assert_eq!(console.duplicate(1, 0), Ok(1));
    assert_eq!(console.open_file(0), [2, 1, 0, 2]);
    assert_eq!(console.close(1, 0), Ok(0));
    assert_eq!(console.open_file(0), [2, 1, 0, 1]);
    assert_eq!(console.process(1)[PROCESS_DESCRIPTOR..][..2], [0, 1]);
    assert_eq!(console.close(1, 1), Ok(0));
    assert_eq!(console.open_file(0), [0, 0, 0, 0]);
    assert_eq!(console.close(1, 1), no(4));
}

#[test]
fn read_moves_the_offset_by_its_count() {
    let mut console = opened(1);
    assert_eq!(console.read(1, 0, 2), Ok(b"2.".to_vec()));
    assert_eq!(console.read(1, 0, 0), Ok(vec![]));
    assert_eq!(console.open_file(0), [2, 1, 2, 1]);
    assert_eq!(console.read(1, 0, 3), Ok(b"40\n".to_vec()));
    assert_eq!(console.read(1, 0, 3), Ok(vec![]));
    assert_eq!(console.open_file(0), [2, 1, 5, 1]);
}

#[test]
fn read_past_the_end_gives_nothing_and_stays() {
    let mut console = opened(3);
    for position in [5, 6, 512] {
        assert_eq!(console.seek(1, 0, position), Ok(u32::from(position)));
        assert_eq!(console.read(1, 0, 600), Ok(vec![]));
        assert_eq!(console.open_file(0)[2], u32::from(position));
    }
}

#[test]
fn bytes_past_the_count_stay_in_the_buffer() {
    let mut console = opened(1);
    let mut buffer = [9; 8];
    let request = Request {
        descriptor: 0,
        number: 3, // not looked at
        ..request(1, 11)
    };
    let answer = console.call(request, b"not a path", b"", &mut buffer);
    assert_eq!((answer.refusal, answer.value), (0, 5));
    assert_eq!(&buffer, b"2.40\n\x09\x09\x09");
}

#[test]
fn a_full_file_is_read_whole() {
    let mut console = opened(3);
    let bytes: Vec<u8> = (0..512).map(|at| at as u8 | 1).collect();
    assert_eq!(console.write(1, 0, &bytes), Ok(512));
    assert_eq!(console.seek(1, 0, 0), Ok(0));
    assert_eq!(console.read(1, 0, 1000), Ok(bytes));
    assert_eq!(console.open_file(0)[2], 512);
}

#[test]
fn write_goes_to_the_offset_and_moves_it() {
    let mut console = opened(2);
    assert_eq!(console.seek(1, 0, 2), Ok(2));
    assert_eq!(console.write(1, 0, b"55"), Ok(2));
    assert_eq!(console.bytes(2), b"2.55\n");
    assert_eq!(console.write(1, 0, b" p"), Ok(2));
    assert_eq!(console.bytes(2), b"2.55 p");
    assert_eq!(console.open_file(0), [2, 2, 6, 1]);
}

#[test]
fn append_goes_to_the_length_whatever_the_offset() {
    let mut console = opened(4);
    assert_eq!(console.seek(1, 0, 2), Ok(2));
    assert_eq!(console.write(1, 0, b"x"), Ok(1));
    assert_eq!(console.bytes(2), b"2.40\nx");
    assert_eq!(console.open_file(0), [2, 4, 6, 1]);
    assert_eq!(console.seek(1, 0, 512), Ok(512));
    assert_eq!(console.write(1, 0, b"y"), Ok(1));
    assert_eq!(console.bytes(2), b"2.40\nxy");
}

#[test]
fn a_write_of_no_data_changes_nothing() {
    for mode in [2, 3, 4] {
        for position in [0, 2, 100, 512] {
            let mut console = opened(mode);
            assert_eq!(console.seek(1, 0, position), Ok(u32::from(position)));
            let before = console.clone();
            assert_eq!(console.write(1, 0, b""), Ok(0));
            assert_eq!(console, before);
        }
    }
}

#[test]
fn a_write_is_all_or_nothing() {
    let mut console = opened(2);
    assert_eq!(console.write(1, 0, &[1; 513]), no(14));
    assert_eq!(console.seek(1, 0, 510), Ok(510));
    assert_eq!(console.write(1, 0, &[1; 3]), no(14));
    assert_eq!(console.write(1, 0, &[1; 2]), Ok(2));
    assert_eq!(console.length(2), 512);
    let mut console = opened(4);
    assert_eq!(console.write(1, 0, &[1; 508]), no(14));
    assert_eq!(console.write(1, 0, &[1; 507]), Ok(507));
    assert_eq!(console.write(1, 0, &[1; 1]), no(14));
    assert_eq!(console.write(1, 0, &[]), Ok(0));
    assert_eq!(console.seek(1, 0, 0), Ok(0));
    assert_eq!(console.write(1, 0, &[1; 1]), no(14));
}

#[test]
fn seek_moves_any_open_file() {
    for mode in [1, 2, 3, 4] {
        let mut console = opened(mode);
        assert_eq!(console.seek(1, 0, 300), Ok(300));
        assert_eq!(console.open_file(0)[2], 300);
    }
}

#[test]
fn a_duplicate_shares_the_offset() {
    let mut console = opened(1);
    assert_eq!(console.duplicate(1, 0), Ok(1));
    assert_eq!(console.read(1, 1, 4), Ok(b"2.40".to_vec()));
    assert_eq!(console.read(1, 0, 4), Ok(b"\n".to_vec()));
}

#[test]
fn two_opens_do_not_share_the_offset() {
    let mut console = opened(1);
    assert_eq!(console.open(1, "/fares/now", 1), Ok(1));
    assert_eq!(console.read(1, 0, 4), Ok(b"2.40".to_vec()));
    assert_eq!(console.read(1, 1, 4), Ok(b"2.40".to_vec()));
}

#[test]
fn descriptors_and_open_files_are_the_lowest_free() {
    let mut console = opened(1);
    assert_eq!(console.open(1, "/fares/now", 2), Ok(1));
    assert_eq!(console.open(1, "/fares/now", 3), Ok(2));
    assert_eq!(console.close(1, 1), Ok(0));
    assert_eq!(console.duplicate(1, 2), Ok(1));
    assert_eq!(console.open(1, "/fares/now", 4), Ok(3));
    assert_eq!(console.open_file(1), [2, 4, 0, 1]);
    assert_eq!(console.open_file(2), [2, 3, 0, 2]);
}
