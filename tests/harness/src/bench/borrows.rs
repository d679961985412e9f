//! A read and a borrowing read of as many bytes beside each other, of a stored file and of a prompt.

use super::mix::{reference_calls, store_calls, Side};
use super::stores::{one_directory, read};
use super::timing::{nanoseconds, print_head, print_row, side_by_side};
use crate::action::Borrow;
use crate::call::Call;
use crate::programs::{reference_borrow, store_borrow};
use crate::rom;
use mritvelja::layout::*;
use mritvelja::Tables;
use std::hint::black_box;

const TURNS: usize = 2_000;
const BORROW: Borrow = Borrow {
    process: 0,
    descriptor: 0,
    count: BLOCK as u32,
};

/// A store of one file, a whole block long, which is in slot 2.
fn one_file() -> Tables {
    let mut tables = one_directory(1);
    tables.file_mut(2)[FILE_LENGTH] = BLOCK as u32;
    tables.block_mut(2).fill(7);
    tables
}

/// The same with all the prompts that there may be, each as long as it may be.
fn with_prompts() -> Tables {
    let rom = rom::laid(&[7; BLOCK]).repeat(PROMPTS);
    Tables { rom, ..one_file() }
}

/// The store with this slot or prompt open for reading.
fn open(mut tables: Tables, slot: usize) -> Tables {
    *tables.open_file_mut(0) = [slot as u32, 1, 0, 1];
    tables.descriptors_mut(0)[0] = 1;
    tables
}

fn store_borrows(tables: &mut Tables, _: &Call, _: &mut [u8]) {
    _ = black_box(store_borrow(tables, &BORROW));
}

fn reference_borrows(tables: &mut Tables, _: &Call, _: &mut [u8]) {
    _ = black_box(reference_borrow(tables, &BORROW));
}

/// Nanoseconds for a read, each from the file's start.
fn time(side: Side, start: &Tables) -> f64 {
    let (mut tables, call) = (start.clone(), read(BLOCK));
    let mut buffer = call.buffer.clone();
    let total = nanoseconds(|| {
        for _ in 0..TURNS {
            tables.open_file_mut(0)[OPEN_OFFSET] = 0;
            side(black_box(&mut tables), &call, &mut buffer);
        }
    });
    let read = tables.open_file(0)[OPEN_OFFSET] as usize;
    assert_eq!(read, BLOCK, "a read was refused");
    total / TURNS as f64
}

fn print_rows(name: &str, start: &Tables) {
    let [store, reference, borrowed, borrowed_reference] = side_by_side([
        &mut || time(store_calls, start),
        &mut || time(reference_calls, start),
        &mut || time(store_borrows, start),
        &mut || time(reference_borrows, start),
    ]);
    print_row(&format!("(7) read of {name}"), [store, reference]);
    let borrows = [borrowed, borrowed_reference];
    print_row(&format!("(7) borrowing read of {name}"), borrows);
}

pub fn print_borrows() {
    println!("\n## Reads of {BLOCK} bytes that copy and that borrow, soundness tested at each\n");
    print_head("row");
    print_rows("a file", &open(one_file(), 2));
    let last = ROM_FIRST + PROMPTS - 1;
    print_rows("the last of 16 prompts", &open(with_prompts(), last));
}
