//! How far a long run is, a line at a time, where somebody sits before a terminal.

use crate::output;
use std::io::{self, IsTerminal};
use std::time::{Duration, Instant};

const FIRST_AFTER: Duration = Duration::from_secs(1);
const THEN_AFTER: Duration = Duration::from_secs(5);

pub struct Progress {
    is_watched: bool,
    next_at: Instant,
}

impl Progress {
    pub fn new() -> Progress {
        Progress {
            is_watched: io::stderr().is_terminal(),
            next_at: Instant::now() + FIRST_AFTER,
        }
    }

    /// Tells how many calls are made, and how much of the script they are.
    pub fn tell(&mut self, calls: u64, done: usize, all: usize) {
        let now = Instant::now();
        if self.is_watched && now >= self.next_at {
            let hundredths = done as u128 * 100 / (all as u128).max(1);
            output::tell(format_args!(
                "{calls} calls made so far, {hundredths} percent of the script"
            ));
            self.next_at = now + THEN_AFTER;
        }
    }
}
