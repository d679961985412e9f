//! Which bytes are sound as ROM, and which open files on its prompts.

use crate::console::{request, Console, PROCESS_DESCRIPTOR};
use crate::prompts::{rom, sixteen, PROMPTS};
use crate::random::Chance;
use crate::script::{block, lines};
use crate::steps::{no, outcome};

fn with_rom(rom: &[u8]) -> Console {
    Console {
        rom: rom.to_vec(),
        ..Console::new()
    }
}

/// That no function takes these bytes for ROM, nor changes anything.
fn assert_unsound(rom: &[u8]) {
    let mut console = with_rom(rom);
    let before = console.clone();
    assert!(!console.is_sound(), "{rom:?}");
    for call in 0..=21 {
        let answer = console.raw(request(9, call), b"/fares", b"/x", &mut [1; 9]);
        assert_eq!(outcome(&answer), no(1), "{rom:?}");
    }
    assert_eq!(console.raw_borrow(9, 9, 513), (1, vec![]));
    let answered = console.scripted(block(2, 9).path("/fares/now"));
    assert_eq!(answered, lines(1, 0, b""));
    assert_eq!(console, before);
}

#[test]
fn up_to_16_prompts_of_up_to_512_bytes_are_sound() {
    assert!(with_rom(b"").is_sound());
    assert!(with_rom(&rom(&PROMPTS)).is_sound());
    assert!(with_rom(&rom(&sixteen())).is_sound());
    for count in 0..=16 {
        assert!(with_rom(&rom(&vec![b""; count])).is_sound());
        assert!(with_rom(&rom(&vec![[9; 512]; count])).is_sound());
    }
    for length in 0..=512 {
        assert!(with_rom(&rom(&[vec![1; length]])).is_sound());
    }
}

#[test]
fn a_length_cut_short() {
    for byte in [0, 1, 255] {
        assert_unsound(&[byte]);
        assert_unsound(&[&rom(&PROMPTS)[..], &[byte]].concat());
        assert_unsound(&[&rom(&sixteen()[..15])[..], &[byte]].concat());
    }
}

#[test]
fn bytes_cut_short() {
    assert_unsound(&[1, 0]);
    assert_unsound(&[2, 0, 65]);
    assert_unsound(&[0, 1]);
    assert_unsound(&[0, 2, 65]);
    let whole = rom(&[[7; 512]]);
    for length in [1, 2, 3, 100, 513] {
        assert_unsound(&whole[..length]);
    }
    let three = rom(&PROMPTS);
    for length in 0..three.len() {
        let between_prompts = [0, 11, 13].contains(&length);
        let sound = with_rom(&three[..length]).is_sound();
        assert_eq!(sound, between_prompts, "{length}");
    }
}

#[test]
fn a_prompt_over_512_bytes() {
    for length in [513, 514, 600, 768, 65_535] {
        let long = vec![65; length];
        assert_unsound(&rom(&[&long[..]]));
        assert_unsound(&rom(&[b"", &long[..]]));
        assert_unsound(&rom(&[&long[..], b""]));
        let last: Vec<&[u8]> = [&[&b""[..]; 15][..], &[&long[..]]].concat();
        assert_unsound(&rom(&last));
    }
    assert_unsound(&[1, 2]); // which is also cut short
    assert_unsound(&[255, 255]);
}

#[test]
fn anything_after_the_sixteenth() {
    for prompts in [sixteen(), vec![vec![]; 16]] {
        let whole = rom(&prompts);
        for byte in [0, 1, 255] {
            assert_unsound(&[&whole[..], &[byte]].concat());
        }
        assert_unsound(&[&whole[..], &[0, 0]].concat());
        assert_unsound(&[&whole[..], &[1, 0, 65]].concat());
        assert_unsound(&[&whole[..], &[0; 100]].concat());
        assert_unsound(&whole.repeat(2));
    }
}

/// The console with this open file under number 0, held by process 2.
fn holding(prompts: &[Vec<u8>], open_file: [u32; 4]) -> Console {
    let mut console = Console::with_prompts(prompts);
    console.open_files[..4].copy_from_slice(&open_file);
    console.set_process_field(2, PROCESS_DESCRIPTOR, 1);
    console
}

#[test]
fn open_files_are_below_the_number_of_prompts() {
    let all = sixteen();
    for count in 0..=16 {
        for slot in 127..=150 {
            let console = holding(&all[..count], [slot, 1, 0, 1]);
            let there = (128..128 + count as u32).contains(&slot);
            assert_eq!(console.is_sound(), there, "{count} {slot}");
        }
    }
    for slot in [256, 65_536, 1 << 31, u32::MAX] {
        assert!(!holding(&all, [slot, 1, 0, 1]).is_sound());
    }
}

#[test]
fn open_files_are_in_mode_1() {
    for slot in [128, 143] {
        for mode in [0, 2, 3, 4, 5, 9, 11, u32::MAX] {
            assert!(!holding(&sixteen(), [slot, mode, 0, 1]).is_sound());
        }
        assert!(holding(&sixteen(), [slot, 1, 0, 1]).is_sound());
    }
}

#[test]
fn open_files_have_offsets_up_to_512() {
    for slot in [128, 143] {
        for offset in [0, 1, 511, 512] {
            assert!(holding(&sixteen(), [slot, 1, offset, 1]).is_sound());
        }
        for offset in [513, u32::MAX] {
            assert!(!holding(&sixteen(), [slot, 1, offset, 1]).is_sound());
        }
    }
}

#[test]
fn open_files_have_as_many_references_as_descriptors() {
    for references in [0, 2, u32::MAX] {
        assert!(!holding(&sixteen(), [128, 1, 0, references]).is_sound());
    }
    let mut console = holding(&sixteen(), [128, 1, 0, 2]);
    console.set_process_field(0, PROCESS_DESCRIPTOR + 7, 1);
    assert!(console.is_sound());
    let mut unheld = Console::talking();
    unheld.open_files[..4].copy_from_slice(&[128, 1, 0, 1]);
    assert!(!unheld.is_sound());
}

#[test]
fn no_directory_entry_names_a_prompt() {
    for slot in 128..=144 {
        let mut console = Console::with_prompts(&sixteen());
        console.set_dirent(0, 1, b"key", slot);
        assert!(!console.is_sound());
    }
}

/// Where soundness is not tested, ROM may be anything.
#[test]
fn acting_on_any_rom_does_not_panic() {
    let mut chance = Chance(6);
    for round in 0..3000 {
        let mut console = Console::with_prompts(&sixteen());
        for number in 0..4 {
            let path = format!("/rom/{:02}", 5 * number);
            assert!(console.open(number % 3, &path, 1).is_ok());
        }
        let length = chance.below([4, 40, 2000][round % 3]);
        let limit = [2, 4, 256][chance.below(3)];
        console.rom = (0..length).map(|_| chance.below(limit) as u8).collect();
        for _ in 0..6 {
            let request = chance.request();
            let (path, data) = (chance.path(), chance.data(request.call));
            console.raw_act(request, path.as_bytes(), &data, &mut [0; 700]);
        }
    }
}
