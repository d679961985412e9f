//! That nobody changes /rom or its files: 9, where bits or ownership are
//! asked, for user 0 too.

use crate::console::{request, Console, SLOTS};
use crate::steps::{no, outcome, stopped, Outcome};

/// Three prompts, and every right over all of the store for everyone.
pub fn free_for_all() -> Console {
    let mut console = Console::open_policy();
    console.rom = Console::talking().rom;
    for slot in 0..4 {
        console.set_bits(slot, 0o777);
    }
    console
}

/// That everyone gets this answer to a call on an untouched console.
pub fn everyone(expected: Outcome, call: impl Fn(&mut Console, u8) -> Outcome) {
    for process in 0..3 {
        let mut console = free_for_all();
        assert_eq!(call(&mut console, process), expected, "process {process}");
        assert_eq!(console, free_for_all());
    }
}

/// The calls that make a name: create, make directory and make symbolic link.
fn make(console: &mut Console, process: u8, call: u8, path: &str) -> Outcome {
    let answer = console.call(request(process, call), path.as_bytes(), b"/key", &mut []);
    outcome(&answer)
}

#[test]
fn opening_a_prompt_to_write() {
    for mode in [2, 3, 4, 10, 11, 12] {
        for path in ["/rom/00", "/rom/01", "/rom/02"] {
            everyone(no(9), |console, process| console.open(process, path, mode));
        }
        everyone(stopped(6, 2), |console, process| {
            console.open(process, "/rom/03", mode)
        });
    }
    for mode in [0, 5, 8, 9] {
        everyone(no(3), |console, process| {
            console.open(process, "/rom/00", mode)
        });
    }
}

#[test]
fn opening_the_directory_is_8() {
    for mode in [1, 2, 3, 4, 10, 11, 12] {
        everyone(no(8), |console, process| {
            console.open(process, "/rom", mode)
        });
    }
}

#[test]
fn a_prompts_descriptor_does_not_write() {
    for process in 0..3 {
        let mut console = free_for_all();
        assert_eq!(console.open(process, "/rom/00", 1), Ok(0));
        for data in [&b""[..], b"x", &[0; 600]] {
            assert_eq!(console.write(process, 0, data), no(5));
        }
    }
}

#[test]
fn making_a_name_in_the_directory() {
    for call in [2, 3, 18] {
        for path in ["/rom/x", "/rom/03", "/rom/rom", "/rom/0", "//rom//16"] {
            everyone(no(9), |console, process| make(console, process, call, path));
        }
        for path in ["/rom/00", "/rom/02"] {
            everyone(no(11), |console, process| {
                make(console, process, call, path)
            });
        }
        everyone(stopped(6, 2), |console, process| {
            make(console, process, call, "/rom/03/x")
        });
        everyone(stopped(7, 3), |console, process| {
            make(console, process, call, "/rom/02/x")
        });
    }
}

#[test]
fn making_a_name_in_the_directory_without_prompts() {
    for call in [2, 3, 18] {
        for process in 0..3 {
            let mut console = free_for_all();
            console.rom.clear();
            assert_eq!(make(&mut console, process, call, "/rom/00"), no(9));
        }
    }
}

#[test]
fn making_the_directory_is_11() {
    for call in [2, 3, 18] {
        for path in ["/rom", "//rom"] {
            everyone(no(11), |console, process| {
                make(console, process, call, path)
            });
        }
    }
    everyone(no(11), |console, process| {
        console.link(process, "/fares/now", "/rom")
    });
}

#[test]
fn unlinking() {
    everyone(no(9), |console, process| console.unlink(process, "/rom/00"));
    everyone(no(8), |console, process| console.unlink(process, "/rom"));
    everyone(stopped(6, 2), |console, process| {
        console.unlink(process, "/rom/03")
    });
    everyone(stopped(7, 3), |console, process| {
        console.unlink(process, "/rom/00/x")
    });
}

#[test]
fn removing_the_directory() {
    everyone(no(9), |console, process| {
        console.remove_directory(process, "/rom")
    });
    everyone(no(8), |console, process| {
        console.remove_directory(process, "/rom/00")
    });
    everyone(stopped(6, 2), |console, process| {
        console.remove_directory(process, "/rom/03")
    });
    // Also when it is empty.
    for process in 0..3 {
        let mut console = free_for_all();
        console.rom.clear();
        assert_eq!(console.remove_directory(process, "/rom"), no(9));
    }
}

#[test]
fn linking_a_prompt() {
    for (old, new, expected) in [
        ("/rom/00", "/x", no(9)),
        ("/rom/00", "/fares/x", no(9)),
        ("/rom/00", "/rom/x", no(9)),
        ("/rom/00", "/rom/03", no(9)),
        ("/rom/00", "/rom/01", no(11)),
        ("/rom/00", "/rom/00", no(11)),
        ("/rom/00", "/rom", no(11)),
        ("/rom/00", "/key", no(11)),
        ("/rom/00", "/none/x", stopped(6, 1)),
        ("/rom/00", "/fares/now/x", stopped(7, 3)),
        ("/rom/00", "/", no(3)),
        ("/rom/00", "/x/", no(3)),
        ("/rom/03", "/x", stopped(6, 2)),
        ("/rom/03", "/key", stopped(6, 2)),
        ("/rom", "/x", no(8)),
        ("/rom", "/key", no(8)),
        ("/rom", "/none/x", no(8)),
    ] {
        everyone(expected, |console, process| console.link(process, old, new));
    }
}

#[test]
fn linking_into_the_directory() {
    for (new, expected) in [
        ("/rom/x", no(9)),
        ("/rom/03", no(9)),
        ("/rom/02", no(11)),
        ("/rom/02/x", stopped(7, 3)),
        ("/rom/x/y", stopped(6, 2)),
    ] {
        everyone(expected, |console, process| {
            console.link(process, "/fares/now", new)
        });
    }
    everyone(no(8), |console, process| {
        console.link(process, "/fares", "/rom/x")
    });
}

#[test]
fn changing_bits() {
    for path in ["/rom", "/rom/00", "/rom/02"] {
        for bits in [0, 292, 365, 511] {
            everyone(no(9), |console, process| {
                console.change_bits(process, path, bits)
            });
        }
        everyone(no(3), |console, process| {
            console.change_bits(process, path, 512)
        });
    }
    everyone(stopped(6, 2), |console, process| {
        console.change_bits(process, "/rom/03", 0)
    });
}

#[test]
fn executing_a_prompt() {
    everyone(no(9), |console, process| {
        console.execute(process, "/rom/00")
    });
    everyone(no(8), |console, process| console.execute(process, "/rom"));
    everyone(stopped(6, 2), |console, process| {
        console.execute(process, "/rom/03")
    });
}

/// A label with no right to write over label 0: what is asked of bits comes
/// first.
#[test]
fn bits_come_before_labels() {
    for process in 0..3 {
        let mut console = free_for_all();
        console.policy[16 * usize::from(process)] = 5;
        assert_eq!(console.open(process, "/rom/00", 3), no(9));
        assert_eq!(console.create(process, "/rom/x", 0), no(9));
        assert_eq!(console.unlink(process, "/rom/00"), no(9));
        assert_eq!(console.remove_directory(process, "/rom"), no(9));
        assert_eq!(console.link(process, "/rom/00", "/x"), no(9));
        assert_eq!(console.link(process, "/fares/now", "/rom/x"), no(9));
        assert_eq!(console.change_bits(process, "/rom", 0), no(9));
        assert_eq!(console.execute(process, "/rom/00"), no(9));
        assert_eq!(console.create(process, "/x", 0), no(10));
    }
}

#[test]
fn bits_come_before_room() {
    let mut console = free_for_all();
    for slot in 4..18 {
        assert_eq!(console.create(0, &format!("/{slot}"), 0), Ok(slot));
    }
    assert_eq!(console.create(0, "/x", 0), no(13)); // the root is full
    assert_eq!(console.link(0, "/rom/00", "/x"), no(9));
    assert_eq!(console.create(0, "/rom/x", 0), no(9));
    for slot in 18..33 {
        assert_eq!(console.create(0, &format!("/fares/{slot}"), 0), Ok(slot));
    }
    assert_eq!(console.link(0, "/rom/00", "/fares/x"), no(9));
}

#[test]
fn bits_come_before_free_slots_and_depth() {
    let mut console = free_for_all();
    for slot in 4..SLOTS {
        let number = slot - 4;
        let (call, path) = match number {
            0..8 => (3, format!("/fares/{number}")),
            _ => (2, format!("/fares/{}/{slot}", (number - 8) / 15)),
        };
        assert_eq!(make(&mut console, 0, call, &path), Ok(slot as u32));
    }
    assert_eq!(console.make_directory(0, "/x", 0), no(13));
    assert_eq!(console.make_directory(0, "/rom/x", 0), no(9));
    assert_eq!(console.symlink(0, "/rom/x", "/"), no(9));
}
