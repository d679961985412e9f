//! The cost of a granted call by its kind, without the soundness test.

use super::mix::{reference_acts, store_acts, Scene, Side};
use super::stores;
use super::timing::{nanoseconds, print_head, print_row, side_by_side};
use super::undo::Undo;
use crate::call::{name_of, Call, CALLS};
use crate::programs::reference_act;
use mritvelja::calls::RENAME;
use mritvelja::Tables;
use std::hint::black_box;

const SAMPLES_IN_A_SCENE: usize = 6;
const TURNS: usize = 100;

/// A rename between two directories has a row of its own, after all calls.
const BETWEEN: usize = CALLS + 1;
const KINDS: usize = BETWEEN + 1;

/// A granted call, the store that it met, and what puts the store back.
struct Sample {
    tables: Tables,
    call: Call,
    undo: Undo,
}

/// The kinds of calls in the scenes, and those of renames in others.
pub fn print_by_kind(scenes: &[Scene], renames: &[Scene]) {
    println!("\n## By call: a granted call without the soundness test\n");
    print_head("call");
    let mut samples = collect(scenes.iter().chain(renames));
    samples[0] = refused_at_once(scenes);
    print_row("refused: process not in use", compare(&mut samples[0]));
    for (kind, samples) in samples.iter_mut().enumerate().skip(1) {
        if samples.is_empty() {
            println!("| {} | none granted | | |", kind_name(kind));
        } else {
            print_row(kind_name(kind), compare(samples));
        }
    }
}

fn kind_name(kind: usize) -> &'static str {
    match kind {
        BETWEEN => "rename between two directories",
        within if within == usize::from(RENAME) => "rename within a directory",
        kind => name_of(kind),
    }
}

/// A call by a process number that none has: what a call costs before its own checks.
fn refused_at_once(scenes: &[Scene]) -> Vec<Sample> {
    let mut call = stores::stat(b"/");
    call.process = u8::MAX;
    let sample = |scene: &Scene| Sample {
        tables: scene.start.clone(),
        call: call.clone(),
        undo: Undo::between(&scene.start, &scene.start),
    };
    scenes.iter().map(sample).collect()
}

/// Granted calls of each kind from every scene.
fn collect<'a>(scenes: impl Iterator<Item = &'a Scene>) -> Vec<Vec<Sample>> {
    let mut samples: Vec<Vec<Sample>> = (0..KINDS).map(|_| Vec::new()).collect();
    for scene in scenes {
        let mut room = [SAMPLES_IN_A_SCENE; KINDS];
        let mut tables = scene.start.clone();
        for call in &scene.calls {
            let before = tables.clone();
            let answer = reference_act(&mut tables, call, &mut call.buffer.clone());
            let undo = Undo::between(&before, &tables);
            let kind = match call.call {
                // Both directories have other entries then.
                RENAME if undo.blocks() == 2 => BETWEEN,
                _ => call.row(),
            };
            if answer.refusal == 0 && room[kind] > 0 {
                room[kind] -= 1;
                samples[kind].push(Sample {
                    undo,
                    tables: before,
                    call: call.clone(),
                });
            }
        }
    }
    samples
}

/// Nanoseconds for a call on each side; the time to put back is taken off.
fn compare(samples: &mut [Sample]) -> [f64; 2] {
    let samples = std::cell::RefCell::new(samples);
    let [store, reference, undo] = side_by_side([
        &mut || time(store_acts, &mut samples.borrow_mut()),
        &mut || time(reference_acts, &mut samples.borrow_mut()),
        &mut || time(|_, _, _| (), &mut samples.borrow_mut()),
    ]);
    [store - undo, reference - undo]
}

fn time(side: Side, samples: &mut [Sample]) -> f64 {
    let mut buffer = vec![0; 1024];
    let count = samples.len();
    let total = nanoseconds(|| {
        // Samples take turns, so that no call waits for what was just put back.
        for _ in 0..TURNS {
            for sample in samples.iter_mut() {
                let lent = &mut buffer[..sample.call.buffer.len()];
                side(black_box(&mut sample.tables), &sample.call, lent);
                sample.undo.put_back(&mut sample.tables);
            }
        }
    });
    total / (count * TURNS) as f64
}
