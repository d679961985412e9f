//! When a borrowing read is refused: 1, 2, 3, 4, 5, 10, in this order, with
//! nothing changed.

use crate::console::{Console, FILE_KIND, FILE_LENGTH};
use crate::prompts::rom;

/// The three prompts, with process 1 holding /rom/00, and /fares/now in each
/// mode, by descriptors 0 to 4.
fn holding() -> Console {
    let mut console = Console::talking();
    assert_eq!(console.open(1, "/rom/00", 1), Ok(0));
    for mode in 1..=4 {
        assert_eq!(console.open(1, "/fares/now", mode), Ok(mode.into()));
    }
    console
}

#[test]
fn refusal_1_for_tables_of_another_size() {
    let resized: [fn(&mut Console); 10] = [
        |console| console.files.truncate(1023),
        |console| console.files.push(0),
        |console| console.contents.truncate(65_535),
        |console| console.contents.clear(),
        |console| console.open_files.truncate(127),
        |console| console.open_files.extend([0; 4]),
        |console| console.processes.truncate(95),
        |console| console.processes.push(0),
        |console| console.policy.truncate(511),
        |console| console.policy.push(255),
    ];
    for resize in resized {
        let mut console = holding();
        resize(&mut console);
        assert_refused(console, 1);
    }
}

#[test]
fn refusal_1_for_what_is_not_sound() {
    let damages: [fn(&mut Console); 8] = [
        |console| console.set_field(0, FILE_KIND, 4),
        |console| console.set_field(3, FILE_LENGTH, 513),
        |console| console.contents[65_535] = 1,
        |console| console.open_files[1] = 2, // a prompt open for writing
        |console| console.policy[0] = 8,
        |console| console.rom.push(0),
        |console| console.rom = rom(&[[1; 513]]),
        |console| console.rom.clear(), // with a prompt still open
    ];
    for damage in damages {
        let mut console = holding();
        damage(&mut console);
        assert!(!console.is_sound());
        assert_refused(console, 1);
    }
}

/// That any borrowing read, of 513 bytes too, gets this refusal alone.
fn assert_refused(mut console: Console, refusal: u32) {
    let before = console.clone();
    for process in [0, 1, 3, 9] {
        for descriptor in [0, 1, 5, 9] {
            for count in [0, 9, 512, 513] {
                let answer = console.raw_borrow(process, descriptor, count);
                assert_eq!(answer, (refusal, vec![]));
            }
        }
    }
    assert_eq!(console, before);
}

#[test]
fn refusal_2_for_a_process_not_in_use_or_over_7() {
    let mut console = holding();
    for process in [3, 7, 8, 255] {
        for descriptor in [0, 9] {
            for count in [0, 9, 513, u32::MAX] {
                assert_eq!(console.borrow(process, descriptor, count), Err(2));
            }
        }
    }
}

#[test]
fn refusal_3_for_more_than_512() {
    let mut console = holding();
    for descriptor in [0, 1, 2, 4, 5, 8, 255] {
        for count in [513, 1000, 65_536 + 9, u32::MAX] {
            assert_eq!(console.borrow(1, descriptor, count), Err(3));
        }
    }
}

#[test]
fn refusal_4_for_a_descriptor_not_held_or_over_7() {
    let mut console = holding();
    for descriptor in [5, 7, 8, 255] {
        for count in [0, 9, 512] {
            assert_eq!(console.borrow(1, descriptor, count), Err(4));
        }
    }
    assert_eq!(console.borrow(0, 0, 9), Err(4));
    assert_eq!(console.close(1, 0), Ok(0));
    assert_eq!(console.borrow(1, 0, 0), Err(4));
}

#[test]
fn refusal_5_for_what_is_not_open_to_read() {
    let mut console = holding();
    for count in [0, 9, 512] {
        assert_eq!(console.borrow(1, 2, count), Err(5));
        assert_eq!(console.borrow(1, 4, count), Err(5));
    }
    assert_eq!(console.borrow(1, 1, 2), Ok(b"2.".to_vec()));
    assert_eq!(console.borrow(1, 3, 2), Ok(b"2.".to_vec()));
}

/// After 3, 4 and 5, for a count of 0 too, and for prompts.
#[test]
fn refusal_10_where_the_label_may_not_read() {
    let mut console = holding();
    for rights in 0..8 {
        console.policy[16] = rights;
        let granted = rights & 4 == 4;
        for descriptor in [0, 1, 3] {
            for count in [0, 1] {
                let answer = console.borrow(1, descriptor, count);
                assert_eq!(answer.is_ok(), granted, "rights {rights}");
                assert!(granted || answer == Err(10));
            }
            assert_eq!(console.borrow(1, descriptor, 513), Err(3));
        }
        assert_eq!(console.borrow(1, 2, 1), Err(5));
        assert_eq!(console.borrow(1, 5, 1), Err(4));
    }
}

#[test]
fn bits_are_not_asked_of_what_is_open() {
    let mut console = holding();
    assert_eq!(console.change_bits(1, "/fares/now", 0), Ok(0));
    assert_eq!(console.borrow(1, 1, 9), Ok(b"2.40\n".to_vec()));
}
