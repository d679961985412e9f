//! Renames of /rom and its files, into /rom, and to its name.

use crate::console::Console;
use crate::prompt_changes::{everyone, free_for_all};
use crate::steps::{no, stopped, Outcome};

/// That everyone gets these answers, each on an untouched console.
fn everyone_gets(cases: &[(&str, &str, Outcome)]) {
    for &(old, new, expected) in cases {
        everyone(expected, |console, process| {
            console.rename(process, old, new)
        });
    }
}

#[test]
fn a_prompt() {
    everyone_gets(&[
        ("/rom/00", "/x", no(9)),
        ("/rom/00", "/fares/x", no(9)),
        ("/rom/00", "/rom/x", no(9)),
        ("/rom/00", "/rom/03", no(9)),
        ("/rom/02", "/rom/0", no(9)),
        ("/rom/00", "/rom/01", no(11)),
        ("/rom/00", "/rom/00", no(11)),
        ("/rom/00", "//rom//00", no(11)),
        ("/rom/00", "/rom", no(11)),
        ("/rom/00", "/key", no(11)),
        ("/rom/00", "/none/x", stopped(6, 1)),
        ("/rom/00", "/fares/now/x", stopped(7, 3)),
        ("/rom/00", "/", no(3)),
        ("/rom/00", "/x/", no(3)),
        ("/rom/03", "/x", stopped(6, 2)),
        ("/rom/03", "/rom/03", stopped(6, 2)),
        ("/rom/00/x", "/x", stopped(7, 3)),
    ]);
}

/// 9 comes before the 8 of a directory that would move.
#[test]
fn the_directory() {
    everyone_gets(&[
        ("/rom", "/x", no(9)),
        ("/rom", "/fares/x", no(9)),
        ("/rom", "/fares/rom", no(9)),
        ("/rom", "/rom/x", no(9)),
        ("/rom", "/rom", no(11)),
        ("/rom", "//rom", no(11)),
        ("/rom", "/key", no(11)),
        ("/rom", "/rom/00", no(11)),
        ("/rom", "/none/x", stopped(6, 1)),
        ("/rom", "/rom/00/x", stopped(7, 3)),
        ("/rom", "/rom/03/x", stopped(6, 2)),
        ("/rom", "/", no(3)),
        ("/", "/rom", no(3)),
    ]);
}

#[test]
fn into_the_directory() {
    everyone_gets(&[
        ("/fares/now", "/rom/x", no(9)),
        ("/fares/now", "/rom/03", no(9)),
        ("/key", "/rom/x", no(9)),
        ("/fares", "/rom/x", no(9)), // before 8
        ("/fares/now", "/rom/02", no(11)),
        ("/fares", "/rom/02", no(11)),
        ("/fares/now", "/rom/02/x", stopped(7, 3)),
        ("/fares/now", "/rom/03/x", stopped(6, 2)),
        ("/none", "/rom/x", stopped(6, 1)),
    ]);
}

#[test]
fn to_its_name() {
    everyone_gets(&[
        ("/fares/now", "/rom", no(11)),
        ("/key", "/rom", no(11)),
        ("/fares", "///rom", no(11)),
    ]);
    for process in 0..3 {
        let mut console = free_for_all();
        assert_eq!(console.rename(process, "/fares/now", "/fares/rom"), Ok(0));
        assert_eq!(console.rename(process, "/fares/rom", "/rom"), no(11));
        assert_eq!(console.rename(process, "/key", "/Rom"), Ok(0));
        assert_eq!(console.rename(process, "/fares/rom", "/00"), Ok(0));
    }
}

#[test]
fn without_prompts() {
    for process in 0..3 {
        let mut console = free_for_all();
        console.rom.clear();
        assert_eq!(console.rename(process, "/rom", "/x"), no(9));
        assert_eq!(console.rename(process, "/key", "/rom"), no(11));
        assert_eq!(console.rename(process, "/key", "/rom/00"), no(9));
        assert_eq!(console.rename(process, "/rom/00", "/x"), stopped(6, 2));
    }
}

/// The prompt's 9 stands at the old parent's bits, before every label; that of
/// /rom as the new parent comes after the old parent's label.
#[test]
fn nine_stands_at_the_bits_of_the_parent() {
    for process in 0..3 {
        let mut console = free_for_all();
        console.policy[16 * usize::from(process)] = 5;
        assert_eq!(console.rename(process, "/rom/00", "/x"), no(9));
        assert_eq!(console.rename(process, "/rom", "/x"), no(9));
        assert_eq!(console.rename(process, "/key", "/x"), no(10));
        assert_eq!(console.rename(process, "/key", "/rom/x"), no(10));
        console.set_label(0, 9); // over which all may write
        assert_eq!(console.rename(process, "/key", "/rom/x"), no(9));
        assert_eq!(console.rename(process, "/rom", "/x"), no(9));
        assert_eq!(console.rename(process, "/key", "/fares/x"), no(10));
    }
}

#[test]
fn nine_comes_before_room() {
    let mut console = free_for_all();
    for slot in 4..18 {
        assert_eq!(console.create(0, &format!("/{slot}"), 0), Ok(slot));
    }
    assert_eq!(console.rename(0, "/fares/now", "/x"), no(13)); // the root is full
    assert_eq!(console.rename(0, "/rom/00", "/x"), no(9));
    assert_eq!(console.rename(0, "/rom", "/x"), no(9));
    assert_eq!(console.rename(0, "/key", "/rom"), no(11));
    assert_eq!(console.rename(0, "/key", "/x"), Ok(0));
}

#[test]
fn by_symbolic_links() {
    let mut console = Console::talking();
    assert_eq!(console.symlink(0, "/voice", "/rom"), Ok(4));
    assert_eq!(console.symlink(0, "/top", "/"), Ok(5));
    for (old, new, expected) in [
        ("/voice/00", "/x", no(9)),
        ("/voice/00", "/rom/x", no(9)),
        ("/voice/00", "/rom/00", no(11)),
        ("/top/rom", "/x", no(9)),
        ("/fares/now", "/voice/x", no(9)),
        ("/fares/now", "/voice/02", no(11)),
        ("/key", "/top/rom", no(11)),
        ("/voice/03", "/x", stopped(6, 2)),
        ("/voice", "/x", Ok(0)), // the link itself
    ] {
        assert_eq!(console.rename(0, old, new), expected, "{old} {new}");
    }
    assert_eq!(console.list(2, "/x", 0), Ok(Some(b"00".to_vec())));
}

#[test]
fn an_open_prompt_is_not_in_the_way() {
    let mut console = Console::talking();
    assert_eq!(console.open(2, "/rom/00", 1), Ok(0));
    assert_eq!(console.rename(0, "/rom/00", "/rom/x"), no(9));
    assert_eq!(console.rename(0, "/fares", "/prices"), Ok(0));
    assert_eq!(console.read(2, 0, 4), Ok(b"next".to_vec()));
}
