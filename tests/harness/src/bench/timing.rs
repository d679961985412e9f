//! Medians of rounds that are run in turn.

use std::ffi::{c_int, c_long};

/// Rounds of every measurement, after one to warm up.
pub const ROUNDS: usize = 41;

/// The processor's time for this thread alone: what else runs is not counted.
const THREAD_TIME: c_int = 3;

#[repr(C)]
struct TimeSpec {
    seconds: c_long,
    nanoseconds: c_long,
}

unsafe extern "C" {
    fn clock_gettime(clock: c_int, time: *mut TimeSpec) -> c_int;
}

fn now() -> f64 {
    let mut time = TimeSpec {
        seconds: 0,
        nanoseconds: 0,
    };
    // SAFETY: the struct is that of the C library on 64-bit Linux, and lives here.
    let status = unsafe { clock_gettime(THREAD_TIME, &mut time) };
    assert!(status == 0, "the thread's time cannot be read");
    1e9 * time.seconds as f64 + time.nanoseconds as f64
}

/// Nanoseconds that the work takes, in the program and in the system.
pub fn nanoseconds(work: impl FnOnce()) -> f64 {
    let start = now();
    work();
    now() - start
}

pub fn median(mut times: Vec<f64>) -> f64 {
    times.sort_by(f64::total_cmp);
    times[times.len() / 2]
}

/// The median of each measurement. They take turns, and each round starts with
/// another, so that a slow moment of the machine meets all alike.
pub fn side_by_side<const N: usize>(measurements: [&mut dyn FnMut() -> f64; N]) -> [f64; N] {
    let mut times = [const { Vec::new() }; N];
    for round in 0..=ROUNDS {
        for turn in 0..N {
            let which = (round + turn) % N;
            let time = measurements[which]();
            if round > 0 {
                times[which].push(time);
            }
        }
    }
    times.map(median)
}

/// A row of a table: both times and the store's share of the reference's.
pub fn print_row(name: &str, [store, reference]: [f64; 2]) {
    println!(
        "| {name} | {store:.0} | {reference:.0} | {:.2} |",
        store / reference
    );
}

pub fn print_head(first: &str) {
    println!("| {first} | store, ns | reference, ns | ratio |\n|---|---:|---:|---:|");
}
