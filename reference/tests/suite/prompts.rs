//! The factory's prompts: what stat, list and read show of /rom and its files.

use crate::console::{Console, DIRECTORY, PLAIN};
use crate::steps::{no, stopped};

/// Three prompts, one of them empty.
pub const PROMPTS: [&[u8]; 3] = [b"next stop", b"", b"doors\nclose\0"];

/// Sixteen prompts, the first of no bytes and the last of 512.
pub fn sixteen() -> Vec<Vec<u8>> {
    (0..15)
        .map(|number| vec![65 + number; 36 * usize::from(number)])
        .chain([vec![255; 512]])
        .collect()
}

/// Prompts as they lie in ROM.
pub fn rom<T: AsRef<[u8]>>(prompts: &[T]) -> Vec<u8> {
    let stored = |prompt: &T| {
        let bytes = prompt.as_ref();
        [&(bytes.len() as u16).to_le_bytes()[..], bytes].concat()
    };
    prompts.iter().flat_map(stored).collect()
}

impl Console {
    pub fn with_prompts<T: AsRef<[u8]>>(prompts: &[T]) -> Console {
        Console {
            rom: rom(prompts),
            ..Console::new()
        }
    }

    /// The test console with the three prompts.
    pub fn talking() -> Console {
        Console::with_prompts(&PROMPTS)
    }
}

/// No prompts, three and as many as there may be.
fn choices() -> [Vec<Vec<u8>>; 3] {
    [vec![], PROMPTS.map(<[u8]>::to_vec).to_vec(), sixteen()]
}

fn path(number: usize) -> String {
    format!("/rom/{number:02}")
}

#[test]
fn each_lies_in_rom_as_two_bytes_of_length_and_its_bytes() {
    assert_eq!(
        rom(&PROMPTS),
        b"\x09\0next stop\0\0\x0c\0doors\nclose\0".to_vec()
    );
    assert_eq!(rom(&[[7; 512]])[..3], [0, 2, 7]);
}

#[test]
fn stat_of_the_directory() {
    for prompts in choices() {
        let mut console = Console::with_prompts(&prompts);
        let record = [DIRECTORY, 0, 0, 365, 0, prompts.len() as u32, 1, 0];
        for process in 0..3 {
            assert_eq!(console.stat(process, "/rom"), Ok(record));
            assert_eq!(console.stat(process, "//rom"), Ok(record));
        }
    }
}

#[test]
fn stat_of_a_prompt() {
    for prompts in choices() {
        let mut console = Console::with_prompts(&prompts);
        for (number, prompt) in prompts.iter().enumerate() {
            let record = [PLAIN, 0, 0, 292, 0, prompt.len() as u32, 1, 0];
            for process in 0..3 {
                assert_eq!(console.stat(process, &path(number)), Ok(record));
            }
        }
    }
}

#[test]
fn names_past_the_last_prompt_are_missing() {
    for prompts in choices() {
        let mut console = Console::with_prompts(&prompts);
        for number in prompts.len()..20 {
            let path = path(number);
            assert_eq!(console.stat(0, &path), Err((6, 2)), "{path}");
            assert_eq!(console.open(2, &path, 1), stopped(6, 2));
            assert_eq!(console.unlink(0, &path), stopped(6, 2));
        }
    }
}

#[test]
fn a_prompt_has_its_two_digits_for_a_name_and_nothing_else() {
    let mut console = Console::with_prompts(&sixteen());
    for name in ["0", "1", "000", "001", "0a", "a0", " 0", "0 ", "-1", "rom"] {
        let path = format!("/rom/{name}");
        assert_eq!(console.stat(0, &path), Err((6, 2)), "{path}");
    }
}

#[test]
fn a_prompt_is_no_directory() {
    let mut console = Console::talking();
    assert_eq!(console.stat(0, "/rom/00/x"), Err((7, 3)));
    assert_eq!(console.create(0, "/rom/00/x", 0), stopped(7, 3));
    assert_eq!(console.list(0, "/rom/00", 0), Err((8, 0)));
    assert_eq!(console.read_symlink(0, "/rom/00", 9), Err((8, 0)));
    assert_eq!(console.read_symlink(0, "/rom", 9), Err((8, 0)));
}

#[test]
fn the_prompts_are_listed_in_order() {
    for prompts in choices() {
        let mut console = Console::with_prompts(&prompts);
        for number in 0..prompts.len() {
            let name = format!("{number:02}").into_bytes();
            let listed = console.list(2, "/rom", number as u16);
            assert_eq!(listed, Ok(Some(name)));
        }
        for past in [prompts.len() as u16, 16, 17, 65_535] {
            assert_eq!(console.list(2, "/rom", past), Ok(None));
        }
    }
}

#[test]
fn a_prompt_is_opened_for_reading_under_its_number() {
    for prompts in choices() {
        for number in 0..prompts.len() {
            let mut console = Console::with_prompts(&prompts);
            assert_eq!(console.open(2, &path(number), 1), Ok(0));
            let slot = 128 + number as u32;
            assert_eq!(console.open_file(0), [slot, 1, 0, 1]);
            assert_eq!(console.close(2, 0), Ok(0));
            assert_eq!(console, Console::with_prompts(&prompts));
        }
    }
}

#[test]
fn a_prompt_is_read_from_the_offset() {
    for prompts in choices() {
        let mut console = Console::with_prompts(&prompts);
        for (number, prompt) in prompts.iter().enumerate() {
            assert_eq!(console.open(2, &path(number), 1), Ok(0));
            let (first, rest) = prompt.split_at(prompt.len().min(5));
            assert_eq!(console.read(2, 0, 0), Ok(vec![]));
            assert_eq!(console.read(2, 0, 5), Ok(first.to_vec()));
            assert_eq!(console.read(2, 0, 600), Ok(rest.to_vec()));
            assert_eq!(console.open_file(0)[2], prompt.len() as u32);
            assert_eq!(console.read(2, 0, 600), Ok(vec![]));
            assert_eq!(console.close(2, 0), Ok(0));
        }
    }
}

#[test]
fn an_offset_may_pass_a_prompts_end() {
    let mut console = Console::talking();
    assert_eq!(console.open(1, "/rom/00", 1), Ok(0));
    assert_eq!(console.seek(1, 0, 5), Ok(5));
    assert_eq!(console.read(1, 0, 9), Ok(b"stop".to_vec()));
    assert_eq!(console.seek(1, 0, 512), Ok(512));
    assert_eq!(console.read(1, 0, 9), Ok(vec![]));
    assert_eq!(console.open_file(0), [128, 1, 512, 1]);
    assert_eq!(console.seek(1, 0, 513), no(3));
}

#[test]
fn open_files_of_prompts_are_shared_and_closed_as_others() {
    let mut console = Console::talking();
    assert_eq!(console.open(2, "/rom/02", 1), Ok(0));
    assert_eq!(console.open(2, "/rom/02", 1), Ok(1));
    assert_eq!(console.duplicate(2, 0), Ok(2));
    assert_eq!(console.fork(2), Ok(3));
    assert_eq!(console.open_file(0), [130, 1, 0, 4]);
    assert_eq!(console.open_file(1), [130, 1, 0, 2]);
    assert_eq!(console.read(3, 2, 6), Ok(b"doors\n".to_vec()));
    assert_eq!(console.read(2, 0, 9), Ok(b"close\0".to_vec()));
    assert_eq!(console.read(2, 1, 5), Ok(b"doors".to_vec()));
    assert_eq!(console.close(2, 0), Ok(0));
    assert_eq!(console.open_file(0), [130, 1, 12, 3]);
    assert_eq!(console.exit(3), Ok(0));
    assert_eq!(console.open_file(0), [130, 1, 12, 1]);
    assert_eq!(console.exit(2), Ok(0));
    assert!(console.open_files.iter().all(|&word| word == 0));
    let fresh = Console::talking();
    assert_eq!(console.files, fresh.files);
    assert_eq!(console.contents, fresh.contents);
}

#[test]
fn opening_a_prompt_needs_a_free_descriptor_and_open_file() {
    let mut console = Console::talking();
    for process in [0, 1, 2] {
        for descriptor in 0..8 {
            assert_eq!(console.open(process, "/rom/00", 1), Ok(descriptor));
        }
    }
    assert_eq!(console.open(2, "/rom/00", 1), no(13));
    assert_eq!(console.open(2, "/rom/00", 2), no(9)); // before 13
    assert_eq!(console.duplicate(2, 0), no(13));
    assert_eq!(console.fork(2), Ok(3));
    for descriptor in 0..8 {
        assert_eq!(console.close(3, descriptor), Ok(0));
        assert_eq!(console.open(3, "/rom/01", 1), Ok(descriptor.into()));
    }
    assert_eq!(console.open_file(31), [129, 1, 0, 1]);
    assert_eq!(console.fork(3), Ok(4));
    assert_eq!(console.close(4, 0), Ok(0));
    assert_eq!(console.open(4, "/rom/00", 1), no(13));
}
