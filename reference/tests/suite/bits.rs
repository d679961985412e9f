//! Whom the bits let pass: the owner by the owner's, the group by the group's,
//! all others by the others'.

use crate::console::{request, Console, PLAIN};
use crate::steps::{no, outcome, stopped};
use reference::Request;

const NOW: &str = "/fares/now";

/// A console on which user 0 has changed the bits of /fares/now.
fn now_with(bits: u16) -> Console {
    let mut console = Console::new();
    assert_eq!(console.change_bits(0, NOW, bits), Ok(0));
    console
}

#[test]
fn an_owner_without_the_right_is_refused() {
    let mut console = Console::new();
    assert_eq!(console.change_bits(1, NOW, 0o044), Ok(0));
    assert_eq!(console.open(1, NOW, 1), no(9));
    assert_eq!(console.open(2, NOW, 1), Ok(0));
    assert_eq!(console.open(0, NOW, 3), Ok(0));
}

#[test]
fn an_owner_who_may_not_search_may_still_change_the_bits() {
    let mut console = Console::new();
    assert_eq!(console.change_bits(1, "/fares", 0o055), Ok(0));
    assert_eq!(console.stat(1, NOW), Err((9, 2)));
    assert!(console.stat(2, NOW).is_ok());
    assert_eq!(console.change_bits(1, "/fares", 0o755), Ok(0));
    assert!(console.stat(1, NOW).is_ok());
}

#[test]
fn the_group_is_not_judged_by_the_others_bits() {
    let mut console = now_with(0o704);
    assert_eq!(console.open(2, NOW, 1), no(9));
    console.set_group(2, 2);
    assert_eq!(console.open(2, NOW, 1), Ok(0));
}

#[test]
fn the_others_are_not_judged_by_the_groups_bits() {
    let mut console = now_with(0o740);
    assert_eq!(console.open(2, NOW, 1), Ok(0));
    console.set_group(2, 9);
    assert_eq!(console.open(2, NOW, 1), no(9));
}

#[test]
fn user_0_executes_what_someone_may() {
    assert_eq!(Console::new().execute(0, NOW), Ok(0));
    assert_eq!(now_with(0o644).execute(0, NOW), no(9));
    for bits in [0o100, 0o010, 0o001] {
        assert_eq!(now_with(bits).execute(0, NOW), Ok(0));
    }
}

#[test]
fn an_execute_bit_of_the_others_serves_user_0_and_them() {
    let mut console = now_with(0o001);
    assert_eq!(console.execute(0, NOW), Ok(0));
    assert_eq!(console.execute(1, NOW), no(9));
    assert_eq!(console.execute(2, NOW), no(9));
    console.set_group(2, 2);
    assert_eq!(console.execute(2, NOW), Ok(0));
}

#[test]
fn executing_is_refused_by_bits_before_labels() {
    let mut console = Console::new();
    console.set_bits(3, 0o666);
    assert_eq!(console.execute(0, "/key"), no(9));
    assert_eq!(console.execute(1, "/key"), no(9));
    console.set_bits(3, 0o667);
    assert_eq!(console.execute(0, "/key"), no(10));
    assert_eq!(console.execute(1, "/key"), no(9));
}

#[test]
fn user_0_searches_any_directory() {
    let mut console = Console::new();
    assert_eq!(console.change_bits(0, "/", 0), Ok(0));
    assert!(console.stat(0, "/fares").is_ok());
    assert_eq!(console.stat(1, "/fares"), Err((9, 1)));
    assert_eq!(console.create(0, "/x", 0), Ok(4));
    assert_eq!(console.create(1, "/y", 0), stopped(9, 1));
}

#[test]
fn listing_wants_read_and_searching_does_not() {
    let mut console = Console::new();
    assert_eq!(console.change_bits(0, "/", 0o711), Ok(0));
    assert_eq!(console.list(1, "/", 0), Err((9, 0)));
    assert_eq!(console.list(0, "/", 0), Ok(Some(b"fares".to_vec())));
    assert!(console.stat(1, NOW).is_ok());
}

#[test]
fn bits_up_to_511_are_well_formed() {
    let mut console = Console::new();
    assert_eq!(console.create(1, "/fares/x", 511), Ok(4));
    assert_eq!(console.file(4), [PLAIN, 10, 1, 511, 0, 0, 1, 0]);
    assert_eq!(console.create(1, "/fares/y", 512), no(3));
    assert_eq!(console.make_directory(1, "/fares/y", 65_535), no(3));
    assert_eq!(console.change_bits(1, "/fares/x", 512), no(3));
}

#[test]
fn bits_over_511_are_refused_after_the_process_and_before_the_walk() {
    let mut console = Console::new();
    let too_high = Request {
        number: 512,
        ..request(9, 8)
    };
    let answer = console.call(too_high, b"/x", b"", &mut []);
    assert_eq!(outcome(&answer), no(2));
    assert_eq!(console.change_bits(2, "/nothere", 512), no(3));
    assert_eq!(console.change_bits(2, "/nothere", 511), stopped(6, 1));
}

#[test]
fn both_rights_are_asked_of_the_same_class() {
    let mut console = Console::new();
    assert_eq!(console.change_bits(1, NOW, 0o466), Ok(0));
    assert_eq!(console.open(1, NOW, 3), no(9));
    assert_eq!(console.open(2, NOW, 3), no(10));
    let mut console = now_with(0o426);
    assert_eq!(console.open(2, NOW, 3), no(9));
}

#[test]
fn an_owner_who_may_not_write_makes_no_names() {
    let mut console = Console::new();
    assert_eq!(console.change_bits(1, "/fares", 0o577), Ok(0));
    assert_eq!(console.create(1, "/fares/x", 0), no(9));
    assert_eq!(console.make_directory(1, "/fares/x", 0), no(9));
    assert_eq!(console.link(1, NOW, "/fares/x"), no(9));
    assert_eq!(console.unlink(1, NOW), no(9));
    assert_eq!(console.create(2, "/fares/x", 0), no(10));
}

#[test]
fn the_group_may_not_change_bits_whatever_they_are() {
    let mut console = now_with(0o077);
    assert_eq!(console.change_bits(2, NOW, 0o777), no(9));
    assert_eq!(console.change_bits(1, NOW, 0o777), Ok(0));
    assert_eq!(Console::new().change_bits(2, NOW, 0o777), no(9));
}

#[test]
fn the_group_makes_names_where_its_bits_let_it() {
    let mut console = Console::new();
    console.set_bits(0, 0o577);
    assert_eq!(console.create(1, "/q", 0), Ok(4));
    console.set_bits(0, 0o757);
    assert_eq!(console.create(1, "/r", 0), no(9));
}

#[test]
fn user_0_passes_the_bits_of_files_of_its_own_too() {
    let mut console = Console::new();
    assert_eq!(console.create(0, "/z", 0), Ok(4));
    assert_eq!(console.open(0, "/z", 3), Ok(0));
    assert_eq!(console.open(1, "/z", 1), no(9));
}

#[test]
fn bits_are_not_asked_of_what_is_open() {
    let mut console = Console::new();
    assert_eq!(console.open(1, NOW, 3), Ok(0));
    assert_eq!(console.change_bits(1, NOW, 0), Ok(0));
    assert_eq!(console.read(1, 0, 16), Ok(b"2.40\n".to_vec()));
    assert_eq!(console.write(1, 0, b"x"), Ok(1));
    assert_eq!(console.open(1, NOW, 1), no(9));
}
