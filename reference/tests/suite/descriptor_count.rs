//! R-9's count: the descriptors held are those at the start, plus opens,
//! duplicates and copies at fork, less closes and those dropped at exit.

use crate::console::{Console, PROCESS_DESCRIPTOR};
use crate::random::Chance;
use crate::steps::no;
use reference::Request;

impl Console {
    /// How many descriptors a process holds, by the tables.
    fn held_by(&self, process: usize) -> usize {
        let descriptors = &self.process(process)[PROCESS_DESCRIPTOR..];
        descriptors.iter().filter(|&&word| word != 0).count()
    }

    /// How many are held by all.
    fn held(&self) -> usize {
        (0..8).map(|process| self.held_by(process)).sum()
    }
}

#[test]
fn the_total_after_each_call() {
    let mut console = Console::new();
    assert_eq!(console.held(), 0);
    assert_eq!(console.open(1, "/fares/now", 1), Ok(0));
    assert_eq!(console.held(), 1);
    assert_eq!(console.open(1, "/fares/now", 1), Ok(1));
    assert_eq!(console.held(), 2);
    assert_eq!(console.duplicate(1, 0), Ok(2));
    assert_eq!(console.held(), 3);
    assert_eq!(console.fork(1), Ok(3));
    assert_eq!(console.held(), 6);
    assert_eq!(console.close(3, 0), Ok(0));
    assert_eq!(console.held(), 5);
    assert_eq!(console.open(3, "/fares/now", 10), Ok(0));
    assert_eq!(console.held(), 6);
    assert_eq!(console.fork(3), Ok(4));
    assert_eq!(console.held(), 9);
    assert_eq!(console.exit(1), Ok(0));
    assert_eq!(console.held(), 6);
    assert_eq!(console.exit(3), Ok(0));
    assert_eq!(console.held(), 3);
    assert_eq!(console.held_by(4), 3);
}

#[test]
fn a_ninth_is_refused_and_not_counted() {
    let mut console = Console::new();
    for descriptor in 0..8 {
        assert_eq!(console.open(1, "/fares/now", 1), Ok(descriptor));
    }
    assert_eq!(console.held(), 8);
    assert_eq!(console.open(1, "/fares/now", 1), no(13));
    assert_eq!(console.duplicate(1, 0), no(13));
    assert_eq!(console.held(), 8);
    assert_eq!(console.fork(1), Ok(3));
    assert_eq!(console.held(), 16);
    assert_eq!(console.open(3, "/fares/now", 10), no(13));
    assert_eq!(console.close(3, 8), no(4));
    assert_eq!(console.held(), 16);
}

/// What the number's last process held has nothing to do with it.
#[test]
fn a_number_given_out_again_starts_from_its_new_fork() {
    let mut console = Console::new();
    for descriptor in 0..3 {
        assert_eq!(console.open(1, "/fares/now", 1), Ok(descriptor));
    }
    assert_eq!(console.fork(1), Ok(3));
    assert_eq!(console.exit(1), Ok(0));
    assert_eq!(console.close(3, 1), Ok(0));
    assert_eq!(console.held(), 2);
    assert_eq!(console.fork(3), Ok(1));
    assert_eq!((console.held_by(1), console.held()), (2, 4));
    assert_eq!(console.open(1, "/fares/now", 3), Ok(1));
    assert_eq!(console.exit(1), Ok(0));
    assert_eq!((console.held_by(1), console.held()), (0, 2));
    assert_eq!(console.fork(2), Ok(1));
    assert_eq!((console.held_by(1), console.held()), (0, 2));
}

/// What a history of granted calls tells, with no look at the tables after the
/// start.
struct Ledger {
    held: [usize; 8],
    gained: usize,
    lost: usize,
}

impl Ledger {
    fn note(&mut self, request: Request, value: u32) {
        let process = usize::from(request.process);
        match request.call {
            1 | 14 => {
                self.held[process] += 1;
                self.gained += 1;
            }
            10 => {
                self.held[process] -= 1;
                self.lost += 1;
            }
            15 => {
                self.held[value as usize] = self.held[process];
                self.gained += self.held[process];
            }
            16 => {
                self.lost += self.held[process];
                self.held[process] = 0;
            }
            _ => {}
        }
    }
}

/// A call by chance, mostly one that opens, closes, forks or exits.
fn request(chance: &mut Chance) -> Request {
    let request = chance.request();
    let calls = [1, 1, 10, 14, 15, 16, request.call, request.call];
    let call = match (request.process, calls[chance.below(calls.len())]) {
        (0, 16) => 15, // else there is soon nobody left
        (_, call) => call,
    };
    Request {
        process: chance.below(9) as u8,
        number: if call == 1 { 1 } else { request.number },
        call,
        ..request
    }
}

#[test]
fn a_history_tells_what_each_process_holds() {
    let mut chance = Chance(8);
    let mut granted = [0; 21];
    for _ in 0..40 {
        let mut console = Console::talking();
        for _ in 0..chance.below(4) {
            assert!(console.open(2, "/fares/now", 1).is_ok());
        }
        let start = console.held();
        let held = [0, 1, 2, 3, 4, 5, 6, 7].map(|process| console.held_by(process));
        let mut ledger = Ledger {
            held,
            gained: 0,
            lost: 0,
        };
        for _ in 0..300 {
            let request = request(&mut chance);
            let (path, data) = (chance.path(), chance.data(request.call));
            let answer = console.call(request, path.as_bytes(), &data, &mut [3; 8]);
            if answer.refusal == 0 {
                granted[usize::from(request.call)] += 1;
                ledger.note(request, answer.value);
            }
            for process in 0..8 {
                assert_eq!(console.held_by(process), ledger.held[process]);
            }
            assert_eq!(console.held() + ledger.lost, start + ledger.gained);
        }
    }
    let counted = [1, 10, 14, 15, 16].map(|call: usize| granted[call]);
    assert!(counted.iter().all(|&count| count > 50), "{granted:?}");
}
