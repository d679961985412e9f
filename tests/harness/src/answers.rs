//! A table of answers: how often each call was answered how.

use crate::call::{name_of, BORROW, ROWS};

const REFUSALS: usize = 16;

/// By call, an unknown one and a borrowing read too, and by refusal, 0 for granted.
pub struct Answers([[u64; REFUSALS]; ROWS]);

impl Default for Answers {
    fn default() -> Answers {
        Answers([[0; REFUSALS]; ROWS])
    }
}

impl Answers {
    pub fn count(&mut self, row: usize, refusal: u32) {
        self.0[row][refusal as usize % REFUSALS] += 1;
    }

    pub fn all(&self) -> u64 {
        self.0.iter().flatten().sum()
    }

    pub fn borrows(&self) -> u64 {
        self.0[BORROW].iter().sum()
    }

    pub fn granted(&self) -> u64 {
        self.0.iter().map(|row| row[0]).sum()
    }

    pub fn print(&self) {
        self.print_rows((1..ROWS).chain([0]));
        let mut sums = [0; REFUSALS];
        for row in &self.0 {
            for (sum, count) in sums.iter_mut().zip(row) {
                *sum += count;
            }
        }
        print_row("all", &sums);
    }

    /// Some of the rows, under a head.
    pub fn print_rows(&self, rows: impl IntoIterator<Item = usize>) {
        print!("{:17}{:>8}", "call", "granted");
        for refusal in 1..REFUSALS {
            print!("{refusal:>7}");
        }
        println!();
        for row in rows {
            print_row(name_of(row), &self.0[row]);
        }
    }
}

fn print_row(name: &str, counts: &[u64; REFUSALS]) {
    print!("{name:17}{:>8}", counts[0]);
    for count in &counts[1..] {
        print!("{count:>7}");
    }
    println!();
}
