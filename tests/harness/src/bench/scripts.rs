//! Scripts of mixed calls, each run whole by both programs.

use super::mix::Scene;
use super::timing::{nanoseconds, print_head, print_row, side_by_side};
use crate::chance::Chance;
use crate::programs::{reference_replay, store_replay};
use crate::scripts::block::Block;
use crate::scripts::run::Program;
use mritvelja::Tables;

/// Room for an answer: more than the longest, of 512 bytes in hex, takes.
const ANSWER: usize = 1_200;

/// A store, and the text of calls that follow each other on it.
struct Script {
    start: Tables,
    text: Vec<u8>,
    calls: usize,
}

impl Script {
    fn random(chance: &mut Chance, calls: usize) -> Script {
        let scene = Scene::scriptable(chance, calls);
        Script {
            text: scene
                .calls
                .iter()
                .flat_map(|call| Block::of(call).text())
                .collect(),
            start: scene.start,
            calls,
        }
    }
}

/// Nanoseconds for a call of the scripts; stores are put back outside the
/// measured time.
fn time_scripts(program: Program, scripts: &[Script]) -> f64 {
    let mut tables = Tables::empty();
    let mut total = 0.0;
    for script in scripts {
        tables.clone_from(&script.start);
        let mut output = vec![0; ANSWER * script.calls];
        let mut calls = 0;
        total += nanoseconds(|| {
            calls = program(&mut tables, &script.text, u32::MAX, &mut output).calls;
        });
        assert_eq!(
            calls as usize, script.calls,
            "a script stopped before its end"
        );
    }
    total / scripts.iter().map(|script| script.calls).sum::<usize>() as f64
}

/// The same number of calls as one script and as many shorter ones.
pub fn print_scripts(seed: u64, scripts: usize, calls: usize) {
    let mut chance = Chance::new(seed);
    let one = [Script::random(&mut chance, scripts * calls)];
    let many: Vec<Script> = (0..scripts)
        .map(|_| Script::random(&mut chance, calls))
        .collect();
    let compare = |scripts: &[Script]| {
        side_by_side([&mut || time_scripts(store_replay, scripts), &mut || {
            time_scripts(reference_replay, scripts)
        }])
    };
    println!("\n## Scripts of mixed calls, soundness tested as a run does\n");
    print_head("row");
    print_row(
        &format!("(5) one script of {}", scripts * calls),
        compare(&one),
    );
    print_row(&format!("(6) {scripts} scripts of {calls}"), compare(&many));
}
