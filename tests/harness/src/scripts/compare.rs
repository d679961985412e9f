//! Both programs on the same scripts, compared by all that a run leaves.

use super::given::{places, Given, Place};
use super::run::{run, run_cut, run_pieces, Program, Run};
use super::script::{spoil, Script};
use super::tally::Tally;
use crate::chance::Chance;
use crate::defects::{self, Defect};
use crate::difference::first_difference;
use crate::programs::{reference_replay, reference_sound, store_replay, store_sound};

const PROGRAMS: [(&str, Program); 2] = [("store", store_replay), ("reference", reference_replay)];
/// Keeps the chances of scripts apart from those of calls.
const OWN_CHANCES: u64 = 0x5c21_9700;
/// How much of a script is shown with a difference.
const SHOWN: usize = 400;

pub struct Scripts {
    seed: u64,
    chance: Chance,
    defects: Vec<Defect>,
    pub tally: Tally,
}

impl Scripts {
    pub fn new(seed: u64) -> Scripts {
        Scripts {
            seed,
            chance: Chance::new(seed ^ OWN_CHANCES),
            defects: defects::all(),
            tally: Tally::new(),
        }
    }

    /// One script on its store, at once and resumed, and on the store that it leaves
    /// once that is damaged.
    pub fn compare_one(&mut self) {
        let script = Script::random(&mut self.chance, &self.defects);
        let places = places(&script);
        self.tally.count_script(&script);
        if self.compare_at_once(&script, &places) {
            self.compare_resumed(&script, &places);
            self.compare_damaged(script);
        }
    }

    /// The programs beside each other. False after a difference.
    fn compare_at_once(&mut self, script: &Script, places: &[Place]) -> bool {
        let given = Given::random(&mut self.chance, places);
        let [ours, theirs] =
            PROGRAMS.map(|(_, program)| run(program, &script.start, &script.text, given));
        self.tally.count_run(&theirs);
        let how = format!("allowance {}, room {}", given.allowance, given.room);
        self.judge(&how, script, &ours, &theirs)
    }

    /// Each program, cut at a place and in pieces, beside the whole.
    fn compare_resumed(&mut self, script: &Script, places: &[Place]) {
        let (start, text) = (&script.start, &script.text[..]);
        let whole = run(reference_replay, start, text, Given::AMPLE);
        let place = self.chance.pick(places).next;
        let pieces = self.chance.word();
        self.tally.resumed += 1;
        for (name, program) in PROGRAMS {
            let cut = run_cut(program, start, text, place);
            let in_pieces = run_pieces(program, start, text, Chance::new(pieces));
            let how = format!("{name}, cut at byte {place}");
            let alike = self.judge(&how, script, &cut, &whole)
                && self.judge(&format!("{name}, in pieces"), script, &in_pieces, &whole);
            if !alike {
                return;
            }
        }
    }

    /// The script once more, on the tables that it left and that were damaged since.
    fn compare_damaged(&mut self, mut script: Script) {
        let left = run(reference_replay, &script.start, &script.text, Given::AMPLE);
        script.start = left.tables;
        if script.spoilt || !spoil(&mut script.start, &mut self.chance, &self.defects) {
            return;
        }
        script.spoilt = true;
        self.tally.damaged += 1;
        let [ours, theirs] =
            PROGRAMS.map(|(_, program)| run(program, &script.start, &script.text, Given::AMPLE));
        self.judge("after damage", &script, &ours, &theirs);
    }

    /// Whether two runs left the same, and what they must leave.
    fn judge(&mut self, how: &str, script: &Script, one: &Run, other: &Run) -> bool {
        let what = if one.replayed != other.replayed {
            "the runs came to different ends"
        } else if !(one.stayed && other.stayed) {
            "output past the answers changed"
        } else if one.output != other.output {
            "the outputs differ"
        } else if one.tables != other.tables {
            "the tables differ"
        } else if !is_kept(script, one) {
            "sound tables are no longer sound, or others were served"
        } else {
            return true;
        };
        self.tally.differences += 1;
        println!("DIFFERENCE: script, {how}: {what}");
        println!("  seed {}, script {}", self.seed, self.tally.scripts);
        report(script, one, other);
        false
    }
}

/// Whether sound tables are sound still, by both programs; on others, whether they
/// are as they were and each call is refused with 1.
fn is_kept(script: &Script, run: &Run) -> bool {
    let sound = [store_sound(&run.tables), reference_sound(&run.tables)];
    match script.spoilt {
        true => sound == [false; 2] && run.tables == script.start && run.is_refused(),
        false => sound == [true; 2],
    }
}

fn report(script: &Script, one: &Run, other: &Run) {
    println!("  this:  {:?}", one.replayed);
    println!("  other: {:?}", other.replayed);
    let longest = one.output.len().max(other.output.len());
    let byte = (0..longest).find(|&at| one.output.get(at) != other.output.get(at));
    if let Some(at) = byte {
        println!("  first differing byte of the output: {at}");
    }
    match first_difference(&one.tables, &other.tables) {
        Some(word) => println!("  first differing word: {word}"),
        None => println!("  the tables are equal"),
    }
    let from = one.replayed.next.min(other.replayed.next);
    let rest = script.text.iter().skip(from).take(SHOWN);
    let shown: Vec<u8> = rest.copied().collect();
    println!("  script from byte {from}: \"{}\"", shown.escape_ascii());
}
