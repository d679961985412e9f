//! Many calls by chance: what holds of every call must hold of each of them.

use crate::console::{Console, FILE_WIDTH, PROCESS_WIDTH, SLOTS};
use crate::prompts::{rom, PROMPTS};
use reference::Request;

const NAMES: [&str; 6] = ["now", "key", "a", "b", "c", "rom"];
const MODES: [usize; 7] = [1, 2, 3, 4, 10, 11, 12];

/// Numbers that look like chance and are the same each time.
pub struct Chance(pub u64);

impl Chance {
    pub fn below(&mut self, limit: usize) -> usize {
        self.0 ^= self.0 << 13;
        self.0 ^= self.0 >> 7;
        self.0 ^= self.0 << 17;
        ((self.0 >> 20) % limit as u64) as usize
    }

    fn one_in(&mut self, count: usize) -> bool {
        self.below(count) == 0
    }

    /// Mostly below the first limit, now and then below the second.
    fn mostly_below(&mut self, limit: usize, seldom: usize) -> usize {
        let limit = if self.one_in(10) { seldom } else { limit };
        self.below(limit)
    }

    fn name(&mut self) -> &'static str {
        NAMES[self.below(NAMES.len())]
    }

    pub fn path(&mut self) -> String {
        match self.below(28) {
            0 => "/".into(),
            24 => "/rom".into(),
            25.. => format!("/rom/0{}", self.below(4)),
            1 => format!("/fares/{}/", self.name()),
            2..5 => "/fares".into(),
            5..7 => format!("/{}", self.name()),
            7..12 => format!("/fares/{}//{}", self.name(), self.name()),
            _ => format!("/fares/{}", self.name()),
        }
    }

    pub fn request(&mut self) -> Request {
        let call = self.mostly_below(21, 23);
        let number = match call {
            _ if self.one_in(20) => self.below(65_536),
            1 => MODES[self.below(MODES.len())],
            2 | 3 | 8 => self.below(512),
            13 => self.below(514),
            _ => self.below(5),
        };
        Request {
            process: self.mostly_below(4, 10) as u8,
            call: call as u8,
            descriptor: self.mostly_below(2, 10) as u8,
            number: number as u16,
        }
    }

    pub fn data(&mut self, call: u8) -> Vec<u8> {
        match call {
            6 | 18 | 20 => self.path().into_bytes(),
            _ => vec![65; self.mostly_below(60, 520)],
        }
    }
}

/// `Console::call` checks each answer and the store after it.
#[test]
fn sound_stores_stay_sound() {
    let mut chance = Chance(1);
    let mut refused = [0; 16];
    let mut granted = [0; 21];
    let mut borrowed = 0;
    for round in 0..40 {
        let mut console = if round % 2 == 0 {
            Console::new()
        } else {
            Console::open_policy()
        };
        console.rom = rom(&PROMPTS[..chance.below(4)]);
        console.policy[256..272].copy_from_slice(&[1; 16]);
        console.set_group(2, round % 3);
        for _ in 0..400 {
            let mut request = chance.request();
            if request.call == 16 && !chance.one_in(20) {
                request.call = 1; // else there is soon nobody left
            }
            let (path, data) = (chance.path(), chance.data(request.call));
            let mut buffer = vec![3; chance.below(10)];
            let answer = console.call(request, path.as_bytes(), &data, &mut buffer);
            refused[answer.refusal as usize] += 1;
            if answer.refusal == 0 {
                granted[usize::from(request.call)] += 1;
            }
            borrowed += usize::from(borrows(&mut console, &mut chance));
        }
    }
    assert!(granted[1..].iter().all(|&count| count > 0), "{granted:?}");
    assert!(refused[2..].iter().all(|&count| count > 0), "{refused:?}");
    assert!(borrowed > 100, "{borrowed}");
}

/// A borrowing read by chance, which `Console::borrow` checks; whether it was
/// granted.
fn borrows(console: &mut Console, chance: &mut Chance) -> bool {
    let Request {
        process,
        descriptor,
        ..
    } = chance.request();
    let count = chance.mostly_below(9, 600) as u32;
    console.borrow(process, descriptor, count).is_ok()
}

/// Tables with a few words altered are judged without a panic, and a call on
/// those found unsound changes nothing.
#[test]
fn damaged_tables_are_refused_and_left_alone() {
    let mut chance = Chance(2);
    let mut refused = 0;
    for _ in 0..4000 {
        let mut console = Console::open_policy();
        console.rom = rom(&PROMPTS);
        for _ in 0..=chance.below(3) {
            damage(&mut console, &mut chance);
        }
        let before = console.clone();
        let sound = console.is_sound();
        let request = chance.request();
        let (path, data) = (chance.path(), chance.data(request.call));
        let answer = console.raw(request, path.as_bytes(), &data, &mut [0; 4]);
        assert_eq!(sound, answer.refusal != 1);
        if answer.refusal != 0 {
            assert_eq!(console, before);
        }
        let (refusal, _) = console.raw_borrow(request.process, 0, 4);
        assert_eq!(sound, refusal != 1);
        refused += usize::from(!sound);
    }
    assert!((100..4000).contains(&refused));
}

fn damage(console: &mut Console, chance: &mut Chance) {
    let word = match chance.below(3) {
        0 => u32::MAX,
        1 => 1 << chance.below(32),
        _ => chance.below(5) as u32,
    };
    match chance.below(6) {
        0 => console.files[chance.below(SLOTS * FILE_WIDTH)] = word,
        1 => console.contents[chance.below(4 * 512)] = word as u8,
        2 => console.open_files[chance.below(32 * 4)] = word,
        3 => console.processes[chance.below(8 * PROCESS_WIDTH)] = word,
        4 => console.rom[chance.below(25)] = word as u8,
        _ => console.policy[chance.below(512)] = word as u8,
    }
}

#[test]
fn tables_of_chance_are_judged_without_a_panic() {
    let mut chance = Chance(3);
    for limit in [2, 3, 70, 256, 100_000] {
        let mut console = Console::new();
        for word in console.files.iter_mut().chain(&mut console.processes) {
            *word = chance.below(limit) as u32;
        }
        for word in &mut console.open_files {
            *word = chance.below(limit) as u32;
        }
        for byte in &mut console.contents {
            *byte = chance.below(limit) as u8;
        }
        assert!(!console.is_sound());
    }
}
