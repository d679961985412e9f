//! An open descriptor is no right: what reads and writes are answered once execute gave the caller another label, with
//! buffers and data longer than the console's lines have.

use mritvelja::layout::*;
use mritvelja::{borrow_read, call, calls, modes, refusals, test_console, Request, Tables};

/// The label that process 1 gets by executing /fares/now.
const MOVED: usize = 5;

/// The test console where process 1 has /fares/now open for both and for appending, and then a label with these rights
/// over it.
fn moved(rights: u8) -> Tables {
    let mut tables = test_console();
    tables.set_rights(MOVED, 0, rights);
    tables.set_transition(1, 0, MOVED as u8);
    for (call_number, number) in [
        (calls::OPEN, modes::BOTH),
        (calls::OPEN, modes::APPEND),
        (calls::EXECUTE, 0),
    ] {
        let request = Request {
            process: 1,
            call: call_number,
            number,
            path: b"/fares/now",
            ..Request::default()
        };
        assert!(call(&mut tables, &request, &mut []).is_granted());
    }
    assert_eq!(tables.process(1)[PROCESS_LABEL], MOVED as u32);
    tables
}

/// What process 1 is answered to a write, the refusal and the value.
fn write(tables: &mut Tables, descriptor: u8, data: &[u8]) -> (u32, u32) {
    let request = Request {
        process: 1,
        call: calls::WRITE,
        descriptor,
        data,
        ..Request::default()
    };
    let answer = call(tables, &request, &mut []);
    assert_eq!(answer.stop, 0);
    (answer.refusal, answer.value)
}

/// The same of a read, with the buffer.
fn read(tables: &mut Tables, descriptor: u8, size: usize) -> (u32, u32, Vec<u8>) {
    let request = Request {
        process: 1,
        call: calls::READ,
        descriptor,
        ..Request::default()
    };
    let mut buffer = vec![7; size];
    let answer = call(tables, &request, &mut buffer);
    assert_eq!(answer.stop, 0);
    (answer.refusal, answer.value, buffer)
}

fn borrow(tables: &mut Tables, descriptor: u8, count: u32) -> Result<Vec<u8>, u32> {
    borrow_read(
        &tables.files,
        &tables.contents,
        &mut tables.open_files,
        &tables.processes,
        &tables.policy,
        &tables.rom,
        1,
        descriptor,
        count,
    )
    .map(<[u8]>::to_vec)
}

#[test]
fn a_label_that_may_only_read_writes_nothing_of_any_length() {
    let mut tables = moved((READ | EXECUTE) as u8);
    let before = tables.clone();
    for descriptor in [0, 1] {
        for length in [0, 1, 507, 508, 512, 513, 600] {
            let refused = (refusals::LABEL_FORBIDS, 0);
            assert_eq!(write(&mut tables, descriptor, &vec![65; length]), refused);
        }
    }
    for length in [0, 600] {
        let refused = (refusals::NOT_HELD, 0);
        assert_eq!(write(&mut tables, 2, &vec![65; length]), refused);
    }
    assert_eq!(tables, before);
    let (refusal, value, buffer) = read(&mut tables, 0, 600);
    assert_eq!((refusal, value), (refusals::GRANTED, 5));
    assert_eq!(&buffer[..6], b"2.40\n\x07");
}

#[test]
fn a_label_that_may_only_write_reads_nothing_of_any_size() {
    let mut tables = moved((WRITE | EXECUTE) as u8);
    let before = tables.clone();
    for size in [0, 1, 512, 600] {
        let refused = (refusals::LABEL_FORBIDS, 0, vec![7; size]);
        assert_eq!(read(&mut tables, 0, size), refused);
        let other_way = (refusals::WRONG_DIRECTION, 0, vec![7; size]);
        assert_eq!(read(&mut tables, 1, size), other_way);
    }
    for count in [0, 1, 512] {
        let refused = Err(refusals::LABEL_FORBIDS);
        assert_eq!(borrow(&mut tables, 0, count), refused);
    }
    assert_eq!(borrow(&mut tables, 0, 513), Err(refusals::MALFORMED));
    assert_eq!(tables, before);
    assert_eq!(write(&mut tables, 0, &[65; 600]), (refusals::TOO_LONG, 0));
    assert_eq!(write(&mut tables, 0, b"3"), (refusals::GRANTED, 1));
}
