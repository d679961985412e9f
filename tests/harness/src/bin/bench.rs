//! bench: the proved store beside the second program and a tmpfs, in one run.

use harness::bench::mix::*;
use harness::bench::timing::{print_head, print_row, ROUNDS};
use harness::bench::{borrows, growth, kinds, scripts, system};
use harness::chance::Chance;
use std::process::ExitCode;

const SEED: u64 = 1;
const STORES: usize = 20;
const CALLS_IN_A_STORE: usize = 500;

/// Lists of mixed calls, each on a store of its own.
fn mixed(make: fn(&mut Chance, usize) -> Scene) -> Vec<Scene> {
    let mut chance = Chance::new(SEED);
    (0..STORES)
        .map(|_| make(&mut chance, CALLS_IN_A_STORE))
        .collect()
}

fn main() -> ExitCode {
    if std::env::args().len() > 1 {
        eprintln!("bench: it takes no arguments\nusage: bench");
        return ExitCode::from(2);
    }
    let scenes = mixed(Scene::random);
    let calls = STORES * CALLS_IN_A_STORE;
    let granted: usize = scenes.iter().map(|scene| scene.granted).sum();
    println!("Medians of {ROUNDS} rounds, nanoseconds for a call.\n");
    println!("## Mixed calls: {calls} on {STORES} stores, {granted} of them granted\n");
    print_head("row");
    print_row(
        "(1) calls, soundness tested at each",
        compare_sides(store_calls, reference_calls, &scenes),
    );
    print_row(
        "(2) calls without the test",
        compare_sides(store_acts, reference_acts, &scenes),
    );
    let without_links = mixed(Scene::without_links);
    print_row(
        "(2) the same, where there are no symbolic links",
        compare_sides(store_acts, reference_acts, &without_links),
    );
    print_row("(3) the soundness test alone", compare_soundness(&scenes));
    system::print_system_calls();
    scripts::print_scripts(SEED, STORES, CALLS_IN_A_STORE);
    borrows::print_borrows();
    kinds::print_by_kind(&scenes, &mixed(Scene::of_renames));
    growth::print_by_size();
    growth::print_by_depth();
    growth::print_by_follows();
    ExitCode::SUCCESS
}
