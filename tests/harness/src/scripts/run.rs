//! A script run by one of the programs: at once, cut and resumed, or in pieces.

use super::given::Given;
use crate::chance::Chance;
use mritvelja::{Replayed, Tables};

/// A program's runner: the tables, the script, the allowance and the output.
pub type Program = fn(&mut Tables, &[u8], u32, &mut [u8]) -> Replayed;

/// Bytes beyond the room, which are not lent and must stay too.
const BEYOND: usize = 64;
const MOST_PIECES: usize = 2_000;
/// Two of the longest answers.
const PIECE_ROOM: usize = 2_100;
/// What is answered on tables that are not sound.
const UNSOUND: &[u8] = b"answer=1\nvalue=0\ndata=\n";

/// What a run leaves.
#[derive(Clone, PartialEq, Eq)]
pub struct Run {
    pub replayed: Replayed,
    /// The output and what lies beyond its room.
    pub output: Vec<u8>,
    /// Whether each byte past the answers is what it was.
    pub stayed: bool,
    pub tables: Tables,
}

impl Run {
    /// Whether each call is refused with 1.
    pub fn is_refused(&self) -> bool {
        let answers = UNSOUND.repeat(self.replayed.calls as usize);
        self.output[..self.replayed.written] == answers
    }
}

/// The bytes of an output before a run: no two neighbours are alike.
fn untouched(room: usize) -> Vec<u8> {
    (0..room + BEYOND)
        .map(|at| (131 * at + at / 256) as u8)
        .collect()
}

/// The script at once, on a copy of the tables.
pub fn run(program: Program, start: &Tables, text: &[u8], given: Given) -> Run {
    let mut tables = start.clone();
    let before = untouched(given.room);
    let mut output = before.clone();
    let room = &mut output[..given.room];
    let replayed = program(&mut tables, text, given.allowance, room);
    Run {
        stayed: output.get(replayed.written..) == before.get(replayed.written..),
        replayed,
        output,
        tables,
    }
}

/// The part of the script before a place, and then the rest.
pub fn run_cut(program: Program, start: &Tables, text: &[u8], place: usize) -> Run {
    let mut resumed = Resumed::new(program, start);
    resumed.go_on(&text[..place], 0, Given::AMPLE);
    resumed.go_on(&text[place..], place, Given::AMPLE);
    resumed.run
}

/// A few calls at a time with little room, each time from where the run before
/// stopped.
pub fn run_pieces(program: Program, start: &Tables, text: &[u8], mut chance: Chance) -> Run {
    let mut resumed = Resumed::new(program, start);
    for _ in 0..MOST_PIECES {
        let next = resumed.run.replayed.next;
        let given = Given {
            allowance: chance.below(6) as u32,
            room: chance.below(PIECE_ROOM),
        };
        resumed.go_on(text.get(next..).unwrap_or(&[]), next, given);
        if resumed.run.replayed.is_last() {
            break;
        }
    }
    resumed.run
}

/// Runs one after another on the same tables, put together as one with an
/// ample output.
struct Resumed {
    program: Program,
    run: Run,
}

impl Resumed {
    fn new(program: Program, start: &Tables) -> Resumed {
        let nothing = Replayed {
            next: 0,
            written: 0,
            calls: 0,
            reason: 0,
        };
        Resumed {
            program,
            run: Run {
                replayed: nothing,
                output: untouched(Given::AMPLE.room),
                stayed: true,
                tables: start.clone(),
            },
        }
    }

    /// Runs this text, which begins at a byte of the whole script.
    fn go_on(&mut self, text: &[u8], at: usize, given: Given) {
        let more = run(self.program, &self.run.tables, text, given);
        let written = self.run.replayed.written;
        let places = self.run.output.iter_mut().skip(written);
        for (place, byte) in places.zip(more.output.iter().take(more.replayed.written)) {
            *place = *byte;
        }
        self.run.replayed = Replayed {
            next: at.saturating_add(more.replayed.next),
            written: written.saturating_add(more.replayed.written),
            calls: self.run.replayed.calls.saturating_add(more.replayed.calls),
            reason: more.replayed.reason,
        };
        self.run.stayed &= more.stayed;
        self.run.tables = more.tables;
    }
}
