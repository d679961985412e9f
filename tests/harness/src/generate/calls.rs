//! Calls by chance that fit the store at hand, so that many are granted.

use super::ways::Names;
use crate::action::{Action, Borrow};
use crate::call::{Call, CALLS};
use crate::chance::Chance;
use crate::held;
use crate::rom;
use mritvelja::calls::{DUPLICATE, READ, SEEK, WRITE};
use mritvelja::layout::*;
use mritvelja::Tables;

/// How often each call is made, the unknown ones at 0.
const WEIGHTS: [usize; CALLS + 1] = [
    1, 14, 8, 6, 5, 5, 5, 6, 5, 6, 9, 10, 10, 5, 4, 3, 2, 5, 5, 4, 10,
];
const MODES: [u16; 9] = [1, 1, 1, 2, 3, 4, 10, 11, 12];
/// Mostly of a file that everyone may use; some shut its owner or its group out.
const BITS: [u16; 12] = [
    0o777, 0o777, 0o777, 0o777, 0o755, 0o744, 0o577, 0o077, 0o707, 0o704, 0o111, 0,
];
/// One action in so many is a borrowing read.
const BORROWS: usize = 12;
/// Other reads that are tried for one where something is read.
const TRIES: usize = 3;
/// How much borrowing reads ask for, up to what they may, and seldom more.
const COUNTS: [u32; 13] = [0, 1, 2, 3, 5, 16, 64, 511, 512, 512, 512, 513, u32::MAX];
const ODD_NUMBERS: [u16; 13] = [0, 5, 8, 9, 13, 16, 17, 256, 257, 511, 512, 513, 65_535];

/// Makes calls for one store; it keeps the store's names at hand.
pub struct CallMaker {
    names: Names,
    /// A slot that calls are to meet more often than others.
    pub favourite: Option<usize>,
    /// The user whose processes alone call, of which one must be in use then.
    pub user: Option<u32>,
}

/// What a call is made for: who asks, and the store as it is.
pub(super) struct Scene<'a> {
    pub(super) chance: &'a mut Chance,
    pub(super) tables: &'a Tables,
    pub(super) names: &'a Names,
    pub(super) favourite: Option<usize>,
    pub(super) process: usize,
}

impl CallMaker {
    pub fn new(tables: &Tables) -> CallMaker {
        CallMaker {
            names: Names::of(tables, true),
            favourite: None,
            user: None,
        }
    }

    /// For calls that have nothing to do with /rom.
    pub fn without_rom(tables: &Tables) -> CallMaker {
        CallMaker {
            names: Names::of(tables, false),
            favourite: None,
            user: None,
        }
    }

    /// To be called after names came or went.
    pub fn refresh(&mut self, tables: &Tables) {
        self.names = Names::of(tables, self.names.sees_rom);
    }

    /// A call or a borrowing read.
    pub fn action(&self, chance: &mut Chance, tables: &Tables) -> Action {
        match chance.one_in(BORROWS) {
            true => Action::Borrow(self.borrow(chance, tables)),
            false => Action::Call(self.call(chance, tables)),
        }
    }

    /// As a read, but mostly where there is something to read.
    fn borrow(&self, chance: &mut Chance, tables: &Tables) -> Borrow {
        let mut read = self.call_of(chance, tables, READ);
        for _ in 0..TRIES {
            if has_bytes(tables, &read) {
                break;
            }
            read = self.call_of(chance, tables, READ);
        }
        let some = chance.below(40) as u32;
        Borrow {
            process: read.process,
            descriptor: read.descriptor,
            count: match chance.below(3) {
                0 => some,
                _ => chance.pick(&COUNTS),
            },
        }
    }

    pub fn call(&self, chance: &mut Chance, tables: &Tables) -> Call {
        let number = kind_of_call(chance, &WEIGHTS);
        self.call_of(chance, tables, number)
    }

    /// A call but rename, by the same chance as before there was that call.
    pub fn call_but_rename(&self, chance: &mut Chance, tables: &Tables) -> Call {
        let number = kind_of_call(chance, &WEIGHTS[..CALLS]);
        self.call_of(chance, tables, number)
    }

    /// A call of the given number.
    pub fn call_of(&self, chance: &mut Chance, tables: &Tables, call: u8) -> Call {
        let holder = self.holder(chance, tables, call);
        let any = |chance: &mut Chance| caller(chance, tables, call, self.user);
        let process = holder.map_or_else(|| any(chance), |(process, _)| process);
        let mut scene = Scene {
            chance,
            tables,
            names: &self.names,
            favourite: self.favourite,
            process: process.min(PROCESSES - 1),
        };
        let descriptor =
            holder.map_or_else(|| scene.descriptor(call), |(_, descriptor)| descriptor);
        let (call, known) = (scene.unknown_call(call), call);
        let number = scene.number(known);
        let path = scene.path(known, number);
        Call {
            process: process as u8,
            call,
            descriptor: descriptor as u8,
            number,
            data: scene.data(known, descriptor, &path),
            path,
            buffer: scene.buffer(),
        }
    }

    /// A process and a descriptor by which it holds the favourite: half of the time, where there is one.
    fn holder(&self, chance: &mut Chance, tables: &Tables, call: u8) -> Option<(usize, usize)> {
        let slot = self.favourite? as u32;
        if !matches!(call, READ | WRITE | SEEK | DUPLICATE) || chance.one_in(2) {
            return None;
        }
        let careless = chance.one_in(12);
        let split = |number| (number / DESCRIPTORS, number % DESCRIPTORS);
        let holds = |number| {
            let (process, descriptor) = split(number);
            let user = tables.process(process)[PROCESS_USER];
            if self.user.is_some_and(|only| only != user) {
                return false;
            }
            let held = held::open_file(tables, process as u8, descriptor as u8);
            held.is_some_and(|open_file| {
                let entry = tables.open_file(open_file);
                entry[OPEN_SLOT] == slot && (careless || fits_direction(call, entry[OPEN_MODE]))
            })
        };
        let number = chance.pick_where(PROCESSES * DESCRIPTORS, holds)?;
        Some(split(number))
    }
}

fn kind_of_call(chance: &mut Chance, weights: &[usize]) -> u8 {
    let mut left = chance.below(weights.iter().sum());
    let mut call = 0;
    while left >= weights[call] {
        left -= weights[call];
        call += 1;
    }
    call as u8
}

/// Mostly a process in use. The last ones seldom exit, else nobody is left.
fn caller(chance: &mut Chance, tables: &Tables, call: u8, user: Option<u32>) -> usize {
    let used = |process: &usize| tables.process(*process)[PROCESS_USED] == 1;
    let in_use: Vec<usize> = (0..PROCESSES).filter(used).collect();
    if let Some(user) = user {
        let of_user = |&process: &usize| tables.process(process)[PROCESS_USER] == user;
        let callers: Vec<usize> = in_use.into_iter().filter(of_user).collect();
        return chance.pick(&callers);
    }
    let spared = call == 16 && in_use.len() < 3 && !chance.one_in(20);
    if in_use.is_empty() || spared || chance.one_in(60) {
        return chance.pick(&[0, 1, 2, 3, 4, 5, 6, 7, 8, 9, 255]);
    }
    chance.pick(&in_use)
}

impl Scene<'_> {
    fn unknown_call(&mut self, call: u8) -> u8 {
        match call {
            0 => self.chance.pick(&[0, 21, 22, 23, 33, 128, 255]),
            known => known,
        }
    }

    /// Mostly a held descriptor that is open in the call's direction.
    fn descriptor(&mut self, call: u8) -> usize {
        if self.chance.one_in(25) {
            return self.chance.pick(&[0, 3, 7, 8, 9, 255]);
        }
        let (tables, process) = (self.tables, self.process);
        let fits = |descriptor: usize| match tables.descriptors(process)[descriptor] {
            0 => false,
            word => fits_direction(call, tables.open_file(word as usize - 1)[OPEN_MODE]),
        };
        let held = |descriptor: usize| tables.descriptors(process)[descriptor] != 0;
        let fitting = if self.chance.percent(88) {
            self.chance.pick_where(DESCRIPTORS, fits)
        } else {
            None
        };
        fitting
            .or_else(|| self.chance.pick_where(DESCRIPTORS, held))
            .unwrap_or_else(|| self.chance.below(DESCRIPTORS))
    }

    fn number(&mut self, call: u8) -> u16 {
        if self.chance.one_in(30) {
            return self.chance.pick(&ODD_NUMBERS);
        }
        match call {
            1 => self.chance.pick(&MODES),
            2 | 3 | 8 if self.chance.one_in(5) => self.chance.below(512) as u16,
            2 | 3 | 8 => self.chance.pick(&BITS),
            7 if self.names.sees_rom && self.chance.one_in(3) => {
                self.chance.below(DIRENTS + 2) as u16
            }
            7 => self.chance.below(10) as u16,
            13 => self.chance.pick(&[0, 0, 1, 5, 30, 100, 500, 511, 512, 512]),
            _ => self.chance.below(65_536) as u16,
        }
    }

    pub(super) fn unused(&mut self) -> Vec<u8> {
        let length = self.chance.pick(&[0, 0, 0, 1, 5, 64, 65, 513]);
        self.chance.bytes(length)
    }

    /// Of a rename the new path, which has to do with the old one.
    fn data(&mut self, call: u8, descriptor: usize, path: &[u8]) -> Vec<u8> {
        match call {
            6 => self.new_path(),
            20 => self.renamed(path),
            18 if self.chance.one_in(20) => self.missing_or_odd(),
            18 => self.names.text(self.chance, self.tables),
            12 => {
                let length = self.write_length(descriptor);
                self.chance.bytes(length)
            }
            _ => self.unused(),
        }
    }

    /// Mostly what fits, now and then just too much.
    fn write_length(&mut self, descriptor: usize) -> usize {
        let held = descriptor < DESCRIPTORS;
        let start = match held.then(|| self.tables.descriptors(self.process)[descriptor]) {
            None | Some(0) => 0,
            Some(word) => self.write_start(word as usize - 1),
        };
        let room = BLOCK - start;
        match self.chance.below(12) {
            0 => 0,
            1 => room,
            2 => room + 1,
            3 => self.chance.pick(&[511, 512, 513, 600]),
            _ => self.chance.below(room.min(40) + 1),
        }
    }

    fn write_start(&self, open_file: usize) -> usize {
        let slot = self.tables.open_file(open_file)[OPEN_SLOT] as usize;
        match self.tables.open_file(open_file)[OPEN_MODE] {
            4 => self.tables.file(slot)[FILE_LENGTH] as usize,
            _ => self.tables.open_file(open_file)[OPEN_OFFSET] as usize,
        }
    }

    fn buffer(&mut self) -> Vec<u8> {
        let length = self.chance.pick(&[0, 1, 4, 16, 16, 64, 511, 512, 600]);
        let fill = self.chance.below(256) as u8;
        vec![fill; length]
    }
}

/// Whether a read's descriptor holds a file with bytes past the offset.
fn has_bytes(tables: &Tables, read: &Call) -> bool {
    held::open_file(tables, read.process, read.descriptor).is_some_and(|open_file| {
        let entry = tables.open_file(open_file);
        let file = rom::file(tables, entry[OPEN_SLOT] as usize);
        entry[OPEN_OFFSET] < file[FILE_LENGTH]
    })
}

fn fits_direction(call: u8, mode: u32) -> bool {
    match call {
        11 => mode == 1 || mode == 3,
        12 => mode != 1,
        _ => true,
    }
}
