//! How far a walk follows, where it stops, and by whose rights it goes.

use crate::console::Console;
use crate::steps::{no, stopped};

fn with_links(links: &[(&str, &str)]) -> Console {
    let mut console = Console::new();
    for (path, text) in links {
        assert!(console.symlink(0, path, text).is_ok());
    }
    console
}

/// Links /1 to /`count`, each to the next one, and the last to `end`.
fn chain(count: usize, end: &str) -> Console {
    let mut console = Console::new();
    for number in 1..=count {
        let next = format!("/{}", number + 1);
        let text = if number < count { &next } else { end };
        assert!(console.symlink(0, &format!("/{number}"), text).is_ok());
    }
    console
}

#[test]
fn a_chain_of_8_is_followed_and_one_of_9_is_not() {
    for count in 1..=8 {
        assert_eq!(chain(count, "/fares/now").open(2, "/1", 1), Ok(0));
    }
    for count in 9..=12 {
        let mut console = chain(count, "/fares/now");
        assert_eq!(console.open(2, "/1", 1), stopped(15, 1));
        let within = format!("/{}", count - 7);
        assert_eq!(console.open(2, &within, 1), Ok(0));
    }
}

#[test]
fn a_chain_before_the_last_name() {
    let mut console = chain(8, "/fares");
    assert!(console.stat(2, "/1/now").is_ok());
    assert_eq!(console.create(1, "/1/x", 0), Ok(12));
    let mut console = chain(9, "/fares");
    assert_eq!(console.stat(2, "/1/now"), Err((15, 1)));
    assert_eq!(console.create(1, "/1/x", 0), stopped(15, 1));
    assert!(console.stat(2, "/1").is_ok());
    assert!(console.stat(2, "/2/now").is_ok());
}

/// What the ninth link leads to is not asked, but its directory is.
#[test]
fn the_ninth_is_refused_when_it_is_met() {
    assert_eq!(chain(9, "/none").open(2, "/1", 1), stopped(15, 1));
    assert_eq!(chain(8, "/none").open(2, "/1", 1), stopped(6, 1));
    assert_eq!(chain(8, "/fares/now/x").open(2, "/1", 1), stopped(7, 1));
    let mut console = chain(8, "/fares/ninth");
    assert_eq!(console.symlink(1, "/fares/ninth", "/fares/now"), Ok(12));
    assert_eq!(console.open(2, "/1", 1), stopped(15, 1));
    console.set_bits(1, 0o744);
    assert_eq!(console.open(2, "/1", 1), stopped(9, 1));
}

#[test]
fn rings_are_refused() {
    let mut console = with_links(&[
        ("/self", "/self"),
        ("/a", "/b"),
        ("/b", "/a"),
        ("/within", "/within/x"),
        ("/long", "/long/long/long"),
    ]);
    for path in ["/self", "/a", "/b", "/within", "/long"] {
        assert_eq!(console.open(2, path, 1), stopped(15, 1));
        let below = format!("//{path}//x");
        assert_eq!(console.stat(2, &below), Err((15, 1)));
    }
}

#[test]
fn follows_count_over_the_whole_path() {
    let mut console = chain(4, "/"); // /1 takes 4 follows, /4 takes 1
    assert!(console.stat(2, "/1/1/fares/now").is_ok());
    assert_eq!(console.open(2, "/1/1/fares/now", 1), Ok(0));
    assert_eq!(console.open(2, "/1/1/4/fares/now", 1), stopped(15, 3));
    assert_eq!(console.open(2, "/1/2/fares/now", 1), Ok(1));
    assert_eq!(console.open(2, "/1/2/4/fares/now", 1), Ok(2));
    assert_eq!(console.open(2, "/1/2/3/fares/now", 1), stopped(15, 3));
    assert_eq!(console.create(0, "/1/1/x", 0), Ok(8));
    assert_eq!(console.create(0, "/1/1/4/y", 0), stopped(15, 3));
}

#[test]
fn the_last_name_counts_where_it_is_followed() {
    let mut console = chain(1, "/");
    assert_eq!(console.symlink(0, "/today", "/fares/now"), Ok(5));
    assert_eq!(console.symlink(0, "/later", "/today"), Ok(6));
    let seven = "/1".repeat(7);
    assert_eq!(console.open(2, &format!("{seven}/today"), 1), Ok(0));
    assert_eq!(
        console.open(2, &format!("{seven}/later"), 1),
        stopped(15, 8)
    );
    let later = console.file(6);
    assert_eq!(console.stat(2, &format!("{seven}/later")), Ok(later));
    assert!(console.list(2, &"/1".repeat(8), 0).is_ok());
    assert_eq!(console.stat(2, &"/1".repeat(8)), Ok(console.file(4)));
}

#[test]
fn follows_inside_texts_count_too() {
    let mut console = chain(4, "/");
    for (path, text) in [
        ("/eight", "/1/2/fares"),  // itself, 4 and 3
        ("/nine", "/1/1/fares"),   // itself, 4 and 4
        ("/nested", "/eight/now"), // itself and 8
        ("/three", "/4/4/fares"),  // itself, 1 and 1
        ("/five", "/4/three/now"), // itself, 1 and 3
    ] {
        assert!(console.symlink(0, path, text).is_ok());
    }
    assert!(console.stat(2, "/eight/now").is_ok());
    assert!(console.list(2, "/eight", 0).is_ok());
    assert_eq!(console.stat(2, "/4/eight/now"), Err((15, 2)));
    assert_eq!(console.list(2, "/nine", 0), Err((15, 1)));
    assert_eq!(console.open(2, "/nested", 1), stopped(15, 1));
    assert_eq!(console.open(2, "/five", 1), Ok(0));
    assert_eq!(console.open(2, "/4/4/4/five", 1), Ok(1));
    assert_eq!(console.open(2, "/4/4/4/4/five", 1), stopped(15, 5));
}

#[test]
fn each_walk_of_a_hard_link_has_its_8() {
    let mut console = chain(8, "/fares");
    assert_eq!(console.link(1, "/1/now", "/1/x"), Ok(0));
    assert_eq!(console.links(2), 2);
    let mut console = chain(9, "/fares");
    assert_eq!(console.link(1, "/1/now", "/2/x"), stopped(15, 1));
    assert_eq!(console.link(1, "/2/now", "/fares/1/x"), stopped(6, 2));
    assert_eq!(console.link(1, "/2/now", "//1/x"), stopped(15, 1));
    assert_eq!(console.link(1, "/2/now", "/2/x"), Ok(0));
}

#[test]
fn each_walk_of_a_rename_has_its_8() {
    let mut console = chain(8, "/fares");
    assert_eq!(console.rename(1, "/1/now", "/1/x"), Ok(0));
    assert_eq!(console.rename(1, "/1/x", "/fares/1/y"), stopped(6, 2));
    let mut console = chain(9, "/fares");
    assert_eq!(console.rename(1, "/1/now", "/2/x"), stopped(15, 1));
    assert_eq!(console.rename(1, "/2/now", "/1/x"), stopped(15, 1));
    assert_eq!(console.rename(1, "/2/now", "/2/x"), Ok(0));
}

#[test]
fn stop_numbers_count_names_of_the_callers_path() {
    let mut console = with_links(&[
        ("/day", "/fares"),
        ("/today", "//fares//now"),
        ("/bad", "/fares/now/x/y/z"),
        ("/none", "/fares/a/b/c"),
        ("/both", "/day/none"),
    ]);
    assert_eq!(console.symlink(1, "/fares/bad", "/bad"), Ok(9));
    assert_eq!(console.open(2, "/bad", 1), stopped(7, 1));
    assert_eq!(console.open(2, "/none", 1), stopped(6, 1));
    assert_eq!(console.open(2, "/both/x/y", 1), stopped(6, 1));
    assert_eq!(console.open(2, "/day/bad/x", 1), stopped(7, 2));
    assert_eq!(console.open(2, "/day/no/x", 1), stopped(6, 2));
    assert_eq!(console.open(2, "/day/now/x", 1), stopped(7, 3));
    assert_eq!(console.open(2, "/today/x/y", 1), stopped(7, 2));
    assert_eq!(console.create(1, "/today/x", 0), stopped(7, 2));
    assert_eq!(console.create(1, "/day/bad/x", 0), stopped(7, 2));
    assert_eq!(console.unlink(1, "/none/x"), stopped(6, 1));
}

#[test]
fn a_text_is_walked_with_the_callers_rights() {
    let mut console = with_links(&[("/day", "/fares"), ("/today", "/day/now")]);
    assert_eq!(console.symlink(1, "/fares/again", "/today"), Ok(6));
    console.set_bits(1, 0o744); // searched by its owner and user 0 alone
    assert_eq!(console.open(2, "/today", 1), stopped(9, 1));
    assert_eq!(console.stat(2, "/day/now"), Err((9, 2)));
    assert!(console.stat(2, "/day").is_ok());
    assert!(console.list(2, "/day", 0).is_ok());
    assert_eq!(console.open(1, "/today", 1), Ok(0));
    assert_eq!(console.open(0, "/fares/again", 1), Ok(0));
    console.set_label(1, 3); // over which none may search
    assert_eq!(console.open(2, "/today", 1), stopped(9, 1));
    assert_eq!(console.open(0, "/today", 1), stopped(10, 1));
    assert_eq!(console.open(1, "/day/now", 1), stopped(10, 2));
    assert_eq!(console.open(1, "/day/again", 1), stopped(10, 2));
}

/// A text starts at the root, which is searched for its first name.
#[test]
fn the_root_is_searched_again_for_each_text() {
    let mut console = with_links(&[("/today", "/fares/now"), ("/top", "/")]);
    console.set_bits(0, 0o700);
    assert_eq!(console.open(2, "/today", 1), stopped(9, 1));
    console.set_bits(0, 0o755);
    assert_eq!(console.symlink(1, "/fares/top", "//"), Ok(6));
    assert!(console.list(2, "/fares/top", 0).is_ok());
    assert_eq!(
        console.open(2, "/fares/top/fares/top/none", 1),
        stopped(6, 5)
    );
}

#[test]
fn rights_asked_after_the_walk_have_stop_0() {
    let mut console = with_links(&[("/day", "/fares"), ("/today", "/day/now"), ("/k", "/key")]);
    assert_eq!(console.open(2, "/today", 2), no(9));
    assert_eq!(console.open(0, "/k", 1), no(10));
    assert_eq!(console.open(1, "/k", 2), Ok(0));
    assert_eq!(console.create(2, "/day/x", 0), no(9));
    assert_eq!(console.unlink(2, "/day/now"), no(9));
    assert_eq!(console.change_bits(2, "/k", 0), no(9));
    console.set_bits(1, 0o777);
    assert_eq!(console.create(2, "/day/x", 0), no(10));
    assert_eq!(console.make_directory(2, "/day/x", 0), no(10));
}

#[test]
fn a_link_in_a_directory_that_the_caller_may_not_search() {
    let mut console = Console::new();
    assert_eq!(console.symlink(1, "/fares/k", "/key"), Ok(4));
    assert_eq!(console.symlink(0, "/k", "/fares/k"), Ok(5));
    console.set_bits(1, 0o744);
    assert_eq!(console.stat(2, "/fares/k"), Err((9, 2)));
    assert_eq!(console.read_symlink(2, "/fares/k", 9), Err((9, 2)));
    assert_eq!(console.open(2, "/k", 1), stopped(9, 1));
    assert_eq!(console.read_symlink(2, "/k", 9), Ok(b"/fares/k".to_vec()));
}
