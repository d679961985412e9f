//! How the cost grows with the number of files, with the depth of a path and with the links that it follows.

use super::mix::*;
use super::stores::*;
use super::timing::{print_head, print_row, side_by_side};
use crate::programs::{reference_sound, store_sound};
use mritvelja::layout::{FOLLOWS, NAMES, SLOTS};

const TURNS: usize = 500;

/// The same four calls on /f00 in stores of several sizes, the last ones counted with the root.
pub fn print_by_size() {
    println!("\n## By the number of files: open, read, write, close of one file, and the soundness test\n");
    println!("| files | act, store | act, reference | call, store | call, reference | soundness, store | soundness, reference |");
    println!("|---:|---:|---:|---:|---:|---:|---:|");
    for (files, slots) in [(1, 1), (16, 16), (64, 63), (SLOTS, SLOTS - 1)] {
        let start = sized(slots);
        assert!(store_sound(&start) && reference_sound(&start));
        let scene = [repeat(start, &cycle(b"/f00"), TURNS)];
        let acts = compare_sides(store_acts, reference_acts, &scene);
        let calls = compare_sides(store_calls, reference_calls, &scene);
        let tests = compare_soundness(&scene);
        println!(
            "| {files} | {:.0} | {:.0} | {:.0} | {:.0} | {:.0} | {:.0} |",
            acts[0], acts[1], calls[0], calls[1], tests[0], tests[1]
        );
    }
}

/// Stat, and open with close, of a file at the end of a chain of directories.
pub fn print_by_depth() {
    println!("\n## By the depth of the path, without the soundness test\n");
    println!("| names | stat, store | stat, reference | open and close, store | open and close, reference |");
    println!("|---:|---:|---:|---:|---:|");
    for depth in 1..=NAMES {
        let (start, path) = chain(depth);
        let stats = [repeat(start.clone(), &[stat(&path)], TURNS)];
        let [open, _, _, close] = cycle(&path);
        let opens = [repeat(start, &[open, close], TURNS)];
        let times = side_by_side([
            &mut || time_scenes(store_acts, &stats),
            &mut || time_scenes(reference_acts, &stats),
            &mut || time_scenes(store_acts, &opens),
            &mut || time_scenes(reference_acts, &opens),
        ]);
        let [store, reference, opened, opened_reference] = times;
        println!("| {depth} | {store:.0} | {reference:.0} | {opened:.0} | {opened_reference:.0} |");
    }
}

/// Stat of one file in one directory, through none of the store's links, one, a few and as many as a walk follows.
pub fn print_by_follows() {
    println!("\n## By the links that a stat follows, without the soundness test\n");
    print_head("follows");
    let start = linked();
    assert!(store_sound(&start) && reference_sound(&start));
    for follows in [0, 1, 4, FOLLOWS] {
        let path = format!("{}/f", directory_by(follows));
        let stats = [repeat(start.clone(), &[stat(path.as_bytes())], TURNS)];
        let times = compare_sides(store_acts, reference_acts, &stats);
        print_row(&follows.to_string(), times);
    }
}
