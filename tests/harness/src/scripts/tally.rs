//! Counts of scripts run and blocks answered.

use super::breaks::WAYS;
use super::run::Run;
use super::script::Script;

const REASONS: [&str; 4] = [
    "at the script's end",
    "with the allowance spent",
    "before a broken block",
    "for want of room",
];

pub struct Tally {
    pub scripts: u64,
    /// Scripts whose store was not sound, and those with prompts.
    spoilt: u64,
    prompted: u64,
    blocks: u64,
    granted: u64,
    /// Runs by the reason for which they stopped.
    stops: [u64; REASONS.len()],
    /// Scripts by the way in which a block is broken.
    ways: [u64; WAYS.len()],
    /// Scripts run again, cut at a place and in pieces.
    pub resumed: u64,
    /// Scripts run once more on what they left, damaged since.
    pub damaged: u64,
    pub differences: u64,
}

impl Tally {
    pub fn new() -> Tally {
        Tally {
            scripts: 0,
            spoilt: 0,
            prompted: 0,
            blocks: 0,
            granted: 0,
            stops: [0; REASONS.len()],
            ways: [0; WAYS.len()],
            resumed: 0,
            damaged: 0,
            differences: 0,
        }
    }

    pub fn count_script(&mut self, script: &Script) {
        self.scripts += 1;
        self.spoilt += u64::from(script.spoilt);
        self.prompted += u64::from(!script.start.rom.is_empty());
        if let Some(way) = script.broken {
            self.ways[way] += 1;
        }
    }

    pub fn count_run(&mut self, run: &Run) {
        let answers = &run.output[..run.replayed.written];
        let refusals = answers.split(|&byte| byte == b'\n').step_by(3);
        self.granted += refusals.filter(|&line| line == b"answer=0").count() as u64;
        self.blocks += u64::from(run.replayed.calls);
        self.stops[run.replayed.reason as usize - 1] += 1;
    }

    pub fn print(&self) {
        println!("\nscripts with a broken block");
        for (count, way) in self.ways.iter().zip(&WAYS) {
            println!("{count:>7}  {}", way.name);
        }
        println!("\nruns of scripts that stopped");
        for (count, reason) in self.stops.iter().zip(REASONS) {
            println!("{count:>7}  {reason}");
        }
        println!(
            "\n{} scripts, {} of them on stores that are not sound, {} with prompts: {} blocks answered, {} granted; {} scripts also cut and resumed, and in pieces, {} run again after damage",
            self.scripts, self.spoilt, self.prompted, self.blocks, self.granted, self.resumed, self.damaged
        );
        println!("differences in scripts: {}", self.differences);
    }
}

impl Default for Tally {
    fn default() -> Tally {
        Tally::new()
    }
}
