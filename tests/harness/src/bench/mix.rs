//! Lists of mixed calls, recorded once and run on every side alike.

use super::timing::{nanoseconds, side_by_side};
use crate::call::Call;
use crate::chance::Chance;
use crate::generate::shape::Shape;
use crate::generate::store::store_of;
use crate::generate::CallMaker;
use crate::programs::*;
use mritvelja::calls::{READLINK, RENAME, SYMLINK};
use mritvelja::Tables;
use std::hint::black_box;

/// A store, and calls that follow each other on it.
pub struct Scene {
    pub start: Tables,
    pub calls: Vec<Call>,
    pub granted: usize,
}

/// A store by chance with an empty factory part: what was measured before there was one is so still.
fn random_store(chance: &mut Chance) -> Tables {
    let shape = Shape::without_rom(chance);
    store_of(chance, shape)
}

impl Scene {
    /// Of the calls that there were before rename, so that what was measured then is so still.
    pub fn random(chance: &mut Chance, calls: usize) -> Scene {
        let start = random_store(chance);
        Scene::on(start, chance, calls, |_| true)
    }

    /// Of renames alone.
    pub fn of_renames(chance: &mut Chance, calls: usize) -> Scene {
        let start = random_store(chance);
        Scene::made(start, chance, calls, |maker, chance, tables| {
            maker.call_of(chance, tables, RENAME)
        })
    }

    /// With no symbolic link, and no call that makes or reads one.
    pub fn without_links(chance: &mut Chance, calls: usize) -> Scene {
        let shape = Shape {
            symlinks: 0,
            ..Shape::without_rom(chance)
        };
        let start = store_of(chance, shape);
        Scene::on(start, chance, calls, |call| {
            !matches!(call.call, SYMLINK | READLINK)
        })
    }

    /// Calls that a script's block can hold: byte 10 ends its path's line.
    pub fn scriptable(chance: &mut Chance, calls: usize) -> Scene {
        let start = random_store(chance);
        Scene::on(start, chance, calls, |call| !call.path.contains(&b'\n'))
    }

    /// So many calls that pass.
    fn on(start: Tables, chance: &mut Chance, calls: usize, pass: fn(&Call) -> bool) -> Scene {
        Scene::made(start, chance, calls, |maker, chance, tables| loop {
            let call = maker.call_but_rename(chance, tables);
            if pass(&call) {
                return call;
            }
        })
    }

    /// So many calls, each made for the store that those before it leave.
    fn made(
        start: Tables,
        chance: &mut Chance,
        calls: usize,
        make: impl Fn(&CallMaker, &mut Chance, &Tables) -> Call,
    ) -> Scene {
        let mut tables = start.clone();
        let mut maker = CallMaker::without_rom(&tables);
        let mut scene = Scene {
            start,
            calls: Vec::new(),
            granted: 0,
        };
        while scene.calls.len() < calls {
            let call = make(&maker, chance, &tables);
            let mut buffer = call.buffer.clone();
            let answer = reference_act(&mut tables, &call, &mut buffer);
            if answer.refusal == 0 {
                scene.granted += 1;
                if call.changes_names() {
                    maker.refresh(&tables);
                }
            }
            scene.calls.push(call);
        }
        scene
    }
}

/// One side: a program's call, whose answer is thrown away.
pub type Side = fn(&mut Tables, &Call, &mut [u8]);

pub fn store_calls(tables: &mut Tables, call: &Call, buffer: &mut [u8]) {
    black_box(store_call(tables, call, buffer));
}

pub fn store_acts(tables: &mut Tables, call: &Call, buffer: &mut [u8]) {
    black_box(store_act(tables, call, buffer));
}

pub fn reference_calls(tables: &mut Tables, call: &Call, buffer: &mut [u8]) {
    black_box(reference_call(tables, call, buffer));
}

pub fn reference_acts(tables: &mut Tables, call: &Call, buffer: &mut [u8]) {
    black_box(reference_act(tables, call, buffer));
}

/// Nanoseconds for a call, over all calls of the scenes; stores are put back
/// outside the measured time.
pub fn time_scenes(side: Side, scenes: &[Scene]) -> f64 {
    let mut tables = Tables::empty();
    let mut buffer = vec![0; 1024];
    let mut total = 0.0;
    let mut calls = 0;
    for scene in scenes {
        tables.clone_from(&scene.start);
        calls += scene.calls.len();
        total += nanoseconds(|| {
            for call in &scene.calls {
                side(&mut tables, call, &mut buffer[..call.buffer.len()]);
            }
        });
    }
    total / calls as f64
}

/// Medians of the store and the reference on the same scenes.
pub fn compare_sides(store: Side, reference: Side, scenes: &[Scene]) -> [f64; 2] {
    side_by_side([&mut || time_scenes(store, scenes), &mut || {
        time_scenes(reference, scenes)
    }])
}

/// Nanoseconds for a soundness test of the scenes' stores.
fn time_soundness(sound: fn(&Tables) -> bool, scenes: &[Scene]) -> f64 {
    const TURNS: usize = 200;
    let total = nanoseconds(|| {
        for scene in scenes {
            for _ in 0..TURNS {
                assert!(sound(black_box(&scene.start)));
            }
        }
    });
    total / (TURNS * scenes.len()) as f64
}

pub fn compare_soundness(scenes: &[Scene]) -> [f64; 2] {
    side_by_side([&mut || time_soundness(store_sound, scenes), &mut || {
        time_soundness(reference_sound, scenes)
    }])
}
