//! The borrowing read: bytes from the store and from ROM, handed back where
//! they lie.

use crate::console::Console;
use crate::prompts::sixteen;
use crate::steps::no;
use reference::{borrow_read, Request};

/// Whether a part lies in this memory.
fn lies_in(part: &[u8], memory: &[u8]) -> bool {
    let (part, memory) = (part.as_ptr_range(), memory.as_ptr_range());
    memory.start <= part.start && part.end <= memory.end
}

impl Console {
    /// The borrowing read as it is: the refusal and the bytes. Only the open
    /// files are lent to be changed, and what is handed back is a part of the
    /// contents or of ROM.
    pub fn raw_borrow(&mut self, process: u8, descriptor: u8, count: u32) -> (u32, Vec<u8>) {
        let mut refusal = 77;
        let bytes = borrow_read(
            &self.files,
            &self.contents,
            &mut self.open_files,
            &self.processes,
            &self.policy,
            &self.rom,
            process,
            descriptor,
            count,
            &mut refusal,
        );
        let memories = [&self.contents, &self.rom];
        assert!(bytes.is_empty() || memories.iter().any(|memory| lies_in(bytes, memory)));
        (refusal, bytes.to_vec())
    }

    /// A borrowing read on sound tables, held to what a read with such a
    /// buffer does: the bytes or the refusal.
    pub fn borrow(&mut self, process: u8, descriptor: u8, count: u32) -> Result<Vec<u8>, u32> {
        assert!(self.is_sound());
        let before = self.clone();
        let (refusal, bytes) = self.raw_borrow(process, descriptor, count);
        assert!(self.is_sound());
        if count <= 512 {
            let mut other = before.clone();
            let read = other.read(process, descriptor, count as usize);
            let expected = read.map_or_else(|(refusal, _)| (refusal, vec![]), |bytes| (0, bytes));
            assert_eq!((refusal, &bytes), (expected.0, &expected.1));
            assert_eq!(*self, other);
        }
        match refusal {
            0 => Ok(bytes),
            refusal => {
                assert_eq!(*self, before);
                assert!(bytes.is_empty());
                Err(refusal)
            }
        }
    }
}

/// Where in a memory a granted borrowing read of process 2 finds its bytes.
fn found_at(console: &mut Console, count: u32, memory: fn(&Console) -> &[u8]) -> usize {
    let mut open_files = console.open_files.clone();
    let mut refusal = 77;
    let bytes = borrow_read(
        &console.files,
        &console.contents,
        &mut open_files,
        &console.processes,
        &console.policy,
        &console.rom,
        2,
        0,
        count,
        &mut refusal,
    );
    assert_eq!(refusal, 0);
    let memory = memory(console);
    assert!(lies_in(bytes, memory));
    let at = bytes.as_ptr() as usize - memory.as_ptr() as usize;
    console.open_files = open_files;
    at
}

#[test]
fn bytes_of_the_store_are_a_part_of_the_contents() {
    let mut console = Console::talking();
    assert_eq!(console.open(2, "/fares/now", 1), Ok(0));
    let contents: fn(&Console) -> &[u8] = |console| &console.contents;
    assert_eq!(found_at(&mut console, 2, contents), 1024);
    assert_eq!(found_at(&mut console, 2, contents), 1026);
    assert_eq!(found_at(&mut console, 512, contents), 1028);
    assert_eq!(console.open_file(0), [2, 1, 5, 1]);
}

#[test]
fn bytes_of_a_prompt_are_a_part_of_rom() {
    let mut console = Console::talking();
    assert_eq!(console.open(2, "/rom/02", 1), Ok(0));
    let rom: fn(&Console) -> &[u8] = |console| &console.rom;
    assert_eq!(found_at(&mut console, 5, rom), 15);
    assert_eq!(found_at(&mut console, 512, rom), 20);
    assert_eq!(console.open_file(0), [130, 1, 12, 1]);
}

#[test]
fn the_bytes_outlive_the_other_tables() {
    let console = Console::talking();
    let mut open_files = console.open_files.clone();
    open_files[..4].copy_from_slice(&[128, 1, 0, 1]);
    let mut refusal = 77;
    let bytes = {
        let mut processes = console.processes.clone();
        processes[12 * 2 + 4] = 1;
        let (files, policy) = (console.files.clone(), console.policy.clone());
        borrow_read(
            &files,
            &console.contents,
            &mut open_files,
            &processes,
            &policy,
            &console.rom,
            2,
            0,
            4,
            &mut refusal,
        )
    };
    open_files.clear();
    assert_eq!((refusal, bytes), (0, &b"next"[..]));
}

#[test]
fn up_to_the_count_from_the_offset() {
    for path in ["/fares/now", "/rom/00"] {
        let mut console = Console::talking();
        assert_eq!(console.open(1, path, 1), Ok(0));
        let whole = console.read(1, 0, 512).unwrap();
        for offset in 0..=whole.len() {
            for count in 0..=whole.len() + 1 {
                assert_eq!(console.seek(1, 0, offset as u16), Ok(offset as u32));
                let end = whole.len().min(offset + count);
                let part = whole[offset..end].to_vec();
                assert_eq!(console.borrow(1, 0, count as u32), Ok(part));
                assert_eq!(console.open_file(0)[2], end as u32);
            }
        }
    }
}

#[test]
fn counts_of_0_512_and_513() {
    for (path, length) in [("/fares/now", 5), ("/rom/15", 512), ("/rom/01", 36)] {
        let mut console = Console::with_prompts(&sixteen());
        assert_eq!(console.open(2, path, 1), Ok(0));
        let before = console.clone();
        assert_eq!(console.borrow(2, 0, 0), Ok(vec![]));
        assert_eq!(console, before);
        for count in [513, 514, 65_536, u32::MAX] {
            assert_eq!(console.borrow(2, 0, count), Err(3));
        }
        let bytes = console.borrow(2, 0, 512).unwrap();
        assert_eq!(bytes.len(), length);
        assert_eq!(console.open_file(0)[2], length as u32);
    }
}

#[test]
fn at_the_end_and_past_it_there_is_nothing() {
    for path in ["/fares/now", "/rom/00", "/rom/01"] {
        let mut console = Console::talking();
        assert_eq!(console.open(2, path, 1), Ok(0));
        assert!(console.borrow(2, 0, 512).is_ok());
        let at_end = console.clone();
        for count in [0, 1, 512] {
            assert_eq!(console.borrow(2, 0, count), Ok(vec![]));
            assert_eq!(console, at_end);
        }
        assert_eq!(console.seek(2, 0, 512), Ok(512));
        assert_eq!(console.borrow(2, 0, 512), Ok(vec![]));
        assert_eq!(console.open_file(0)[2], 512);
    }
}

#[test]
fn the_offset_is_shared_as_with_reads() {
    for path in ["/fares/now", "/rom/02"] {
        let mut console = Console::talking();
        assert_eq!(console.open(2, path, 1), Ok(0));
        assert_eq!(console.open(2, path, 1), Ok(1));
        assert_eq!(console.duplicate(2, 0), Ok(2));
        assert_eq!(console.fork(2), Ok(3));
        let whole = console.read(2, 1, 512).unwrap();
        assert_eq!(console.borrow(2, 0, 1), Ok(whole[..1].to_vec()));
        assert_eq!(console.borrow(3, 2, 2), Ok(whole[1..3].to_vec()));
        assert_eq!(console.read(3, 0, 1), Ok(whole[3..4].to_vec()));
        assert_eq!(console.borrow(2, 2, 512), Ok(whole[4..].to_vec()));
        assert_eq!(console.borrow(3, 1, 512), Ok(vec![]));
    }
}

#[test]
fn a_file_without_a_name_is_still_borrowed_from() {
    let mut console = Console::talking();
    assert_eq!(console.open(1, "/fares/now", 3), Ok(0));
    assert_eq!(console.unlink(1, "/fares/now"), Ok(0));
    assert_eq!(console.borrow(1, 0, 3), Ok(b"2.4".to_vec()));
    assert_eq!(console.write(1, 0, b"5!"), Ok(2));
    assert_eq!(console.seek(1, 0, 3), Ok(3));
    assert_eq!(console.borrow(1, 0, 9), Ok(b"5!".to_vec()));
    assert_eq!(console.write(1, 0, &[1; 600]), no(14));
}

/// It is a read when it is written down: what is kept is a call 11.
#[test]
fn written_down_it_is_a_read() {
    let read = Request {
        process: 2,
        call: 11,
        descriptor: 1,
        number: 512,
    };
    let written = reference::encode(read, b"", b"");
    assert_eq!(written, Some(vec![2, 11, 1, 0, 2, 0]));
}
