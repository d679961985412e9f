//! Running a script of calls.

use crate::answer::Answer;
use crate::refusal::Refusal;
use crate::script::{Scripted, LARGEST_READ, LONGEST_ANSWER};

/// Why a run stopped.
#[derive(Clone, Copy, Debug, PartialEq, Eq)]
pub enum Reason {
    /// The script is at its end.
    End = 1,
    /// The allowance is spent.
    Allowance = 2,
    /// The next block is broken.
    Broken = 3,
    /// The next answer is too long for what is left of the output.
    Room = 4,
}

impl Reason {
    pub fn number(self) -> u32 {
        self as u32
    }
}

/// How far a run came.
#[derive(Clone, Copy, Debug, PartialEq, Eq)]
pub struct Replayed {
    /// How many calls were answered.
    pub calls: u32,
    /// The byte of the script where the next block begins.
    pub next: usize,
    /// How many bytes of the output hold answers.
    pub written: usize,
    pub reason: Reason,
}

/// Makes the calls of a script, at most `allowance` of them, and writes their
/// answers to the output.
///
/// The reasons to stop are asked before each call, in the order of [`Reason`].
/// A call whose answer has no room is not made. Output bytes past the answers
/// stay as they were. Soundness is tested once, at the start: no call makes
/// sound tables unsound, or unsound ones sound.
#[allow(clippy::too_many_arguments)] // the lent tables come one by one
pub fn replay(
    files: &mut [u32],
    contents: &mut [u8],
    open_files: &mut [u32],
    processes: &mut [u32],
    policy: &[u8],
    rom: &[u8],
    script: &[u8],
    allowance: u32,
    output: &mut [u8],
) -> Replayed {
    let mut lent = Lent {
        sound: crate::sound(files, contents, open_files, processes, policy, rom),
        files,
        contents,
        open_files,
        processes,
        policy,
        rom,
    };
    lent.run(script, allowance, output)
}

/// The tables as they are lent, of whatever size.
struct Lent<'a> {
    /// Whether they were sound at the start of the run, and so are now.
    sound: bool,
    files: &'a mut [u32],
    contents: &'a mut [u8],
    open_files: &'a mut [u32],
    processes: &'a mut [u32],
    policy: &'a [u8],
    rom: &'a [u8],
}

impl Lent<'_> {
    fn run(&mut self, script: &[u8], allowance: u32, output: &mut [u8]) -> Replayed {
        let (mut calls, mut rest, mut written) = (0, script, 0);
        let reason = loop {
            if rest.is_empty() {
                break Reason::End;
            }
            if calls == allowance {
                break Reason::Allowance;
            }
            let Some((scripted, after)) = Scripted::parse(rest) else {
                break Reason::Broken;
            };
            let Some(length) = self.answer(&scripted, &mut output[written..]) else {
                break Reason::Room;
            };
            calls += 1;
            rest = after;
            written += length;
        };
        Replayed {
            calls,
            next: script.len() - rest.len(),
            written,
            reason,
        }
    }

    /// Makes a call and writes its answer at the start of the room, if it
    /// fits; the length of what was written.
    fn answer(&mut self, scripted: &Scripted, room: &mut [u8]) -> Option<usize> {
        if room.len() < LONGEST_ANSWER && self.rehearse(scripted).len() > room.len() {
            return None;
        }
        let lines = self.make(scripted);
        room[..lines.len()].copy_from_slice(lines.as_bytes());
        Some(lines.len())
    }

    /// The answer that a call would have, found on a copy of the tables.
    fn rehearse(&self, scripted: &Scripted) -> String {
        Lent {
            sound: self.sound,
            files: &mut self.files.to_vec(),
            contents: &mut self.contents.to_vec(),
            open_files: &mut self.open_files.to_vec(),
            processes: &mut self.processes.to_vec(),
            policy: self.policy,
            rom: self.rom,
        }
        .make(scripted)
    }

    /// Makes a call; the lines of its answer.
    fn make(&mut self, scripted: &Scripted) -> String {
        let mut buffer = [0; LARGEST_READ as usize];
        let buffer = &mut buffer[..scripted.read_size()];
        let answer = if self.sound {
            self.act(scripted, buffer)
        } else {
            Answer::from(Refusal::Unsound)
        };
        scripted.answer_lines(&answer, buffer)
    }

    fn act(&mut self, scripted: &Scripted, buffer: &mut [u8]) -> Answer {
        crate::act(
            self.files,
            self.contents,
            self.open_files,
            self.processes,
            self.policy,
            self.rom,
            scripted.request(),
            scripted.path,
            &scripted.data,
            buffer,
        )
    }
}
