//! Scripts, short to write, and runs of them that are checked as they are
//! made.

use crate::console::Console;
use reference::{replay, Reason, Replayed};

/// What stands in the output before a run.
pub const UNTOUCHED: u8 = 170;

/// The six lines of a call, all 0 or empty unless set.
#[derive(Clone, Debug)]
pub struct Block {
    pub process: u32,
    pub call: u32,
    pub descriptor: u32,
    pub number: u32,
    pub path: Vec<u8>,
    pub data: Vec<u8>,
}

pub fn block(process: u32, call: u32) -> Block {
    Block {
        process,
        call,
        descriptor: 0,
        number: 0,
        path: Vec::new(),
        data: Vec::new(),
    }
}

impl Block {
    pub fn descriptor(self, descriptor: u32) -> Block {
        Block { descriptor, ..self }
    }

    pub fn number(self, number: u32) -> Block {
        Block { number, ..self }
    }

    pub fn path(self, path: impl AsRef<[u8]>) -> Block {
        let path = path.as_ref().to_vec();
        Block { path, ..self }
    }

    pub fn data(self, data: impl AsRef<[u8]>) -> Block {
        let data = data.as_ref().to_vec();
        Block { data, ..self }
    }

    /// The six lines, each with its end.
    pub fn lines(&self) -> [Vec<u8>; 6] {
        [
            format!("proc={}\n", self.process).into_bytes(),
            format!("call={}\n", self.call).into_bytes(),
            format!("fd={}\n", self.descriptor).into_bytes(),
            format!("arg={}\n", self.number).into_bytes(),
            [b"path=", &self.path[..], b"\n"].concat(),
            format!("data={}\n", hex(&self.data)).into_bytes(),
        ]
    }

    pub fn text(&self) -> Vec<u8> {
        self.lines().concat()
    }
}

pub fn script(blocks: &[Block]) -> Vec<u8> {
    blocks.iter().flat_map(Block::text).collect()
}

pub fn hex(bytes: &[u8]) -> String {
    bytes.iter().map(|byte| format!("{byte:02x}")).collect()
}

/// The three lines of an answer.
pub fn lines(answer: u32, value: u32, data: &[u8]) -> String {
    format!("answer={answer}\nvalue={value}\ndata={}\n", hex(data))
}

impl Console {
    /// A run into an output of this size, held to what is true of every run:
    /// how far it came, and the output.
    pub fn replay(&mut self, script: &[u8], allowance: u32, size: usize) -> (Replayed, String) {
        let mut output = vec![UNTOUCHED; size];
        let replayed = self.replay_into(script, allowance, &mut output);
        let (answers, rest) = output.split_at(replayed.written);
        assert!(rest.iter().all(|&byte| byte == UNTOUCHED));
        let answers = String::from_utf8(answers.to_vec()).unwrap();
        assert_eq!(3 * replayed.calls as usize, answers.lines().count());
        assert!(replayed.calls <= allowance);
        assert!(replayed.next <= script.len());
        let at_end = replayed.next == script.len();
        assert_eq!(at_end, replayed.reason == Reason::End);
        (replayed, answers)
    }

    pub fn replay_into(&mut self, script: &[u8], allowance: u32, output: &mut [u8]) -> Replayed {
        replay(
            &mut self.files,
            &mut self.contents,
            &mut self.open_files,
            &mut self.processes,
            &self.policy,
            &self.rom,
            script,
            allowance,
            output,
        )
    }

    /// The answers to a script that runs to its end.
    pub fn answers(&mut self, blocks: &[Block]) -> String {
        let script = script(blocks);
        let (replayed, answers) = self.replay(&script, u32::MAX, 100_000);
        assert_eq!(replayed.reason, Reason::End);
        assert_eq!(replayed.calls as usize, blocks.len());
        assert_eq!(replayed.next, script.len());
        answers
    }

    /// The answer to a single call.
    pub fn scripted(&mut self, block: Block) -> String {
        self.answers(&[block])
    }
}

/// That a script is broken at its start, with room for an answer or without.
pub fn assert_broken(script: &[u8]) {
    for size in [0, 1000] {
        let mut console = Console::new();
        let (replayed, _) = console.replay(script, 5, size);
        let stopped = Replayed {
            calls: 0,
            next: 0,
            written: 0,
            reason: Reason::Broken,
        };
        let shown = String::from_utf8_lossy(script);
        assert_eq!(replayed, stopped, "{shown}");
        assert_eq!(console, Console::new());
    }
}
