//! The diagnosis beside the proved test, on spoilt stores.

use super::first_defect;
use super::tests::{console_with_link, console_with_open_file, console_with_prompts, dig};
use mritvelja::layout::*;
use mritvelja::Tables;

/// Numbers that look like chance, the same in every run.
struct Chance(u64);

impl Chance {
    fn below(&mut self, bound: usize) -> usize {
        self.0 ^= self.0 << 13;
        self.0 ^= self.0 >> 7;
        self.0 ^= self.0 << 17;
        (self.0 % bound as u64) as usize
    }

    fn word(&mut self) -> u32 {
        [
            0, 1, 2, 3, 4, 5, 7, 8, 15, 16, 31, 32, 33, 127, 128, 130, 131, 143, 144, 255, 511,
            512, 513, 65_535, 65_536,
        ][self.below(25)]
    }
}

/// Sets one word or byte to something else, more often where a store has something.
fn spoil(tables: &mut Tables, chance: &mut Chance) {
    let word = chance.word();
    match chance.below(7) {
        0 => tables.files[chance.below(FILE_WIDTH * 20)] = word,
        1 => tables.open_files[chance.below(OPEN_FILE_WIDTH * 3)] = word,
        2 => tables.processes[chance.below(PROCESS_WIDTH * PROCESSES)] = word,
        3 => tables.policy[chance.below(POLICY_SIZE)] = word as u8,
        4 => {
            tables.block_mut(chance.below(5))[chance.below(70)] =
                [word as u8, b'/', b'.', b'x'][chance.below(4)]
        }
        5 => spoil_rom(&mut tables.rom, word as u8, chance),
        _ => tables.contents[chance.below(SLOTS * BLOCK)] = word as u8,
    }
}

fn spoil_rom(rom: &mut Vec<u8>, byte: u8, chance: &mut Chance) {
    match chance.below(3) {
        0 => rom.truncate(chance.below(20)),
        1 => rom.extend(vec![byte; chance.below(30)]),
        _ => {
            let at = chance.below(20);
            if let Some(there) = rom.get_mut(at) {
                *there = byte;
            }
        }
    }
}

#[test]
fn the_diagnosis_agrees_with_the_proved_test() {
    let mut chance = Chance(0x9e37_79b9_7f4a_7c15);
    let mut sound = 0;
    for round in 0..20_000 {
        let mut tables = match round % 5 {
            0 => console_with_open_file(),
            1 | 2 => console_with_link(),
            _ => console_with_prompts(),
        };
        if chance.below(20) == 0 {
            tables.set_dirent(ROOT, chance.below(2), b"rom", 1 + 2 * chance.below(2));
        }
        if round % 2 == 0 {
            dig(&mut tables, 8);
        }
        for _ in 0..=chance.below(3) {
            spoil(&mut tables, &mut chance);
        }
        let is_sound = mritvelja::sound(&tables);
        assert_eq!(first_defect(&tables).is_none(), is_sound, "round {round}");
        sound += u32::from(is_sound);
    }
    assert!((1_000..19_000).contains(&sound), "{sound} sound stores");
}
