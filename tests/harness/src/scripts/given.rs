//! What a run is given beside its store and its script: the calls allowed and
//! the room for answers.

use super::run::run;
use super::script::Script;
use crate::chance::Chance;
use crate::programs::reference_replay;

#[derive(Clone, Copy, Debug)]
pub struct Given {
    pub allowance: u32,
    pub room: usize,
}

/// A place between two blocks: how many bytes of the script and of the answers
/// lie before it.
#[derive(Clone, Copy, Debug, Default)]
pub struct Place {
    pub next: usize,
    pub written: usize,
}

/// The places between the blocks that can be answered, from the script's start
/// on: the second program makes one call at a time.
pub fn places(script: &Script) -> Vec<Place> {
    const ONE: Given = Given {
        allowance: 1,
        ..Given::AMPLE
    };
    let mut tables = script.start.clone();
    let mut place = Place::default();
    let mut places = vec![place];
    loop {
        let one = run(reference_replay, &tables, &script.text[place.next..], ONE);
        if one.replayed.calls == 0 {
            return places;
        }
        tables = one.tables;
        place.next += one.replayed.next;
        place.written += one.replayed.written;
        places.push(place);
    }
}

impl Given {
    /// More than any script here needs.
    pub const AMPLE: Given = Given {
        allowance: u32::MAX,
        room: 36_000,
    };

    /// Ample, none, or about what the script needs.
    pub fn random(chance: &mut Chance, places: &[Place]) -> Given {
        let calls = places.len() - 1;
        let allowance = random_allowance(chance, calls as u32);
        let answered = calls.min(allowance as usize);
        Given {
            allowance,
            room: random_room(chance, &places[..=answered]),
        }
    }
}

fn random_allowance(chance: &mut Chance, calls: u32) -> u32 {
    match chance.below(10) {
        0 => 0,
        1 => calls.saturating_sub(1),
        2 | 3 => calls,
        4 => calls + 1,
        5 => chance.below(calls as usize + 1) as u32,
        6 => chance.pick(&[1, 255, 256, 65_536, 1 << 31]),
        _ => u32::MAX,
    }
}

/// Room for all answers or some, just enough or one byte less, or any.
fn random_room(chance: &mut Chance, places: &[Place]) -> usize {
    let all = places[places.len() - 1].written;
    let some = places[chance.below(places.len())].written;
    match chance.below(16) {
        0 => 0,
        1 | 2 => all,
        3 => all.saturating_sub(1),
        4 => all + 1,
        5 => some,
        6 => some.saturating_sub(1),
        7 => chance.below(all + 1),
        _ => Given::AMPLE.room,
    }
}
