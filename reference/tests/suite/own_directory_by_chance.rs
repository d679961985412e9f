//! R-9 over many calls by chance: whatever user A's processes and their
//! children do, foo stays and names bar, and bar is unchanged.

use crate::console::Console;
use crate::own_directory::{A, BAR, FARES, FOO, NOT_WRITABLE};
use crate::random::Chance;
use reference::Request;

/// Process numbers that are A's or free, the first one always A's. The other
/// users' processes, 0 and 2, make no call.
const NUMBERS: [u8; 9] = [A, A, A, A, A, 3, 3, 4, 5];

const NAMES: [&str; 7] = ["a", "b", "c", "foo", "bar", "baz", "now"];

impl Console {
    /// The names that foo and bar have now.
    fn names(&self) -> [String; 2] {
        [(FARES, FOO), (FOO, BAR)].map(|(directory, slot)| {
            let mut dirents = self.block(directory).chunks(16);
            let dirent = dirents.find(|dirent| dirent[14] == slot as u8);
            let name = &dirent.expect("it is named there")[..14];
            String::from_utf8_lossy(name).replace('\0', "")
        })
    }
}

/// A path in one of the directories that there are at first, under the names
/// that these have now, or in one that A may make.
fn path(console: &Console, chance: &mut Chance) -> String {
    let [outer, inner] = console.names();
    let directory = match chance.below(6) {
        0 => "/fares".into(),
        1 => "/fares/a".into(),
        2 | 3 => format!("/fares/{outer}"),
        _ => format!("/fares/{outer}/{inner}"),
    };
    match chance.below(4) {
        0 => directory,
        _ => format!("{directory}/{}", NAMES[chance.below(NAMES.len())]),
    }
}

fn request(chance: &mut Chance) -> Request {
    let request = chance.request();
    let process = NUMBERS[chance.below(NUMBERS.len())];
    let call = match (process, request.call) {
        (A, 16) => 5, // else there is soon nobody left
        (_, call) => call,
    };
    Request {
        process,
        call,
        ..request
    }
}

/// A call by chance of one of A's processes; its number and refusal.
fn call(console: &mut Console, chance: &mut Chance) -> (usize, usize) {
    let request = request(chance);
    let first = path(console, chance);
    let data = match request.call {
        6 | 18 | 20 => path(console, chance).into_bytes(),
        call => chance.data(call),
    };
    let answer = console.call(request, first.as_bytes(), &data, &mut [3; 8]);
    (request.call.into(), answer.refusal as usize)
}

#[test]
fn foo_still_names_bar() {
    let mut chance = Chance(7);
    let (mut refused, mut granted, mut renamed) = ([0; 16], [0; 21], [0; 2]);
    for round in 0..160 {
        let (bits, group) = NOT_WRITABLE[round % NOT_WRITABLE.len()];
        let mut console = Console::bogus(bits, group);
        assert_eq!(console.open(A, "/fares/now", 3), Ok(0));
        let start = console.clone();
        for _ in 0..100 {
            let had = console.names();
            let (call, refusal) = call(&mut console, &mut chance);
            refused[refusal] += 1;
            if refusal == 0 {
                granted[call] += 1;
            }
            console.assert_bar_stays(&start);
            for (index, name) in console.names().iter().enumerate() {
                // Nothing but a granted rename gives another name.
                let same = *name == had[index];
                assert!(same || (call, refusal) == (20, 0));
                renamed[index] += usize::from(!same);
            }
        }
        for other in [0, 2] {
            assert_eq!(console.process(other), start.process(other));
        }
    }
    assert!(granted[1..].iter().all(|&count| count > 0), "{granted:?}");
    assert!(refused[9] > 100 && refused[12] > 100, "{refused:?}");
    assert!(renamed.iter().all(|&count| count > 5), "{renamed:?}");
}
