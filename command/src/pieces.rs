//! A script run in pieces, so that the output's size is never a reason to stop.

use crate::memory;
use crate::progress::Progress;
use mritvelja::reasons::{ALLOWANCE, BROKEN, END, ROOM};
use mritvelja::Tables;
use std::collections::TryReserveError;

/// Room for some sixty of the longest answers, a read of 512 bytes.
const OUTPUT: usize = 65_536;

#[derive(Debug, PartialEq, Eq)]
pub enum Reason {
    End,
    Allowance,
    Broken,
}

#[derive(Debug, PartialEq, Eq)]
pub struct Replayed {
    pub answers: Vec<u8>,
    pub calls: u64,
    /// The byte of the script where the next block begins.
    pub next: usize,
    pub reason: Reason,
}

/// Why a run has no result.
#[derive(Debug)]
pub enum Lost {
    /// The answers do not fit the memory.
    Memory,
    /// What the library must not do.
    Unexpected(String),
}

impl From<TryReserveError> for Lost {
    fn from(_: TryReserveError) -> Lost {
        Lost::Memory
    }
}

/// Runs a script, at most `allowed` calls of it.
pub fn run(tables: &mut Tables, script: &[u8], allowed: Option<u64>) -> Result<Replayed, Lost> {
    memory::grow(|| run_within(tables, script, allowed, OUTPUT))
}

/// Runs a script in pieces of as many answers as fit into `room` bytes.
fn run_within(
    tables: &mut Tables,
    script: &[u8],
    allowed: Option<u64>,
    room: usize,
) -> Result<Replayed, Lost> {
    let mut output = vec![0; room];
    let mut run = Replayed {
        answers: Vec::new(),
        calls: 0,
        next: 0,
        reason: Reason::End,
    };
    let mut progress = Progress::new();
    loop {
        let left = allowed.map_or(u64::MAX, |allowed| allowed - run.calls);
        let allowance = u32::try_from(left).unwrap_or(u32::MAX);
        let piece = mritvelja::replay(tables, &script[run.next..], allowance, &mut output);
        run.answers.try_reserve(piece.written)?;
        run.answers.extend(&output[..piece.written]);
        run.calls += u64::from(piece.calls);
        run.next += piece.next;
        run.reason = match piece.reason {
            END => Reason::End,
            ALLOWANCE if allowed == Some(run.calls) => Reason::Allowance,
            BROKEN => Reason::Broken,
            // There is more to do, and the output is empty again.
            ALLOWANCE | ROOM if piece.calls > 0 => {
                progress.tell(run.calls, run.next, script.len());
                continue;
            }
            reason => return Err(unexpected(reason, &run)),
        };
        return Ok(run);
    }
}

/// A stop that the library does not make where there is room for an answer.
fn unexpected(reason: u32, run: &Replayed) -> Lost {
    let Replayed { calls, next, .. } = run;
    Lost::Unexpected(format!(
        "the run stopped for reason {reason} after {calls} calls, at byte {next}"
    ))
}

#[cfg(test)]
mod tests {
    use super::*;
    use mritvelja::test_console;

    const DAY: &[u8] = include_bytes!("../../examples/day.script");
    /// Room for the longest answer of the example day, and not for two.
    const NARROW: usize = 64;

    fn run_on(tables: &mut Tables, script: &[u8], allowed: Option<u64>, room: usize) -> Replayed {
        run_within(tables, script, allowed, room).unwrap()
    }

    #[test]
    fn a_narrow_output_changes_nothing() {
        let (mut wide, mut narrow) = (test_console(), test_console());
        let whole = run_on(&mut wide, DAY, None, OUTPUT);
        assert_eq!(whole.next, DAY.len());
        assert_eq!(whole, run_on(&mut narrow, DAY, None, NARROW));
        assert_eq!(wide, narrow);
    }

    #[test]
    fn pieces_of_the_day_are_the_day() {
        let mut whole_tables = test_console();
        let whole = run_on(&mut whole_tables, DAY, None, OUTPUT);
        for piece in 1..=whole.calls {
            let (mut tables, mut answers, mut next) = (test_console(), Vec::new(), 0);
            while next < DAY.len() {
                let part = run_on(&mut tables, &DAY[next..], Some(piece), NARROW);
                assert!(part.calls <= piece);
                answers.extend(part.answers);
                next += part.next;
            }
            assert_eq!(answers, whole.answers);
            assert_eq!(tables, whole_tables);
        }
    }

    #[test]
    fn the_end_comes_before_the_allowance_and_that_before_a_broken_block() {
        let reason = |script: &[u8], allowed| {
            let run = run_on(&mut test_console(), script, allowed, OUTPUT);
            (run.calls, run.next, run.reason)
        };
        assert_eq!(reason(b"", Some(0)), (0, 0, Reason::End));
        assert_eq!(reason(b"x", Some(0)), (0, 0, Reason::Allowance));
        assert_eq!(reason(b"x", Some(1)), (0, 0, Reason::Broken));
        assert_eq!(reason(b"x", None), (0, 0, Reason::Broken));
    }

    #[test]
    fn an_output_without_room_is_not_waited_for() {
        assert!(run_within(&mut test_console(), DAY, None, 3).is_err());
    }
}
