//! Which paths are well formed, and what they mean.

use crate::console::{request, Console};
use crate::steps::{no, outcome, stopped, Outcome};

const WELL_FORMED: u32 = 6;
const MALFORMED: u32 = 3;

/// What stat says of the path, for a user who may search everything.
fn stat(path: &[u8]) -> Outcome {
    outcome(&Console::new().call(request(0, 9), path, b"", &mut []))
}

#[test]
fn slashes_alone_mean_the_root() {
    let root = Console::new().file(0);
    for length in [1, 2, 3, 64] {
        assert_eq!(Console::new().stat(2, &"/".repeat(length)), Ok(root));
    }
    assert_eq!(stat(&[b'/'; 65]), no(MALFORMED));
}

#[test]
fn a_path_starts_with_a_slash() {
    for path in ["", "fares", "fares/now", " /fares", "."] {
        assert_eq!(stat(path.as_bytes()), no(MALFORMED), "{path}");
    }
}

#[test]
fn a_path_has_at_most_64_bytes() {
    let path = "/12345678901234/12345678901234/12345678901234/12345678901234/123";
    assert_eq!(path.len(), 64);
    assert_eq!(stat(path.as_bytes()), stopped(WELL_FORMED, 1));
    let longer = format!("/{path}");
    assert_eq!(stat(longer.as_bytes()), no(MALFORMED));
    let long_run = format!("{}fares", "/".repeat(59));
    assert_eq!(stat(long_run.as_bytes()), Ok(0));
    assert_eq!(stat(&[b'a'; 1000]), no(MALFORMED));
}

#[test]
fn a_name_has_1_to_14_bytes() {
    assert_eq!(stat(b"/12345678901234"), stopped(WELL_FORMED, 1));
    assert_eq!(stat(b"/123456789012345"), no(MALFORMED));
    assert_eq!(stat(b"/fares/123456789012345"), no(MALFORMED));
}

#[test]
fn a_path_has_at_most_8_names() {
    assert_eq!(stat(b"/1/2/3/4/5/6/7/8"), stopped(WELL_FORMED, 1));
    assert_eq!(stat(b"/1/2/3/4/5/6/7/8/9"), no(MALFORMED));
    assert_eq!(stat(b"/1/2/3/4/5/6/7/8/"), no(MALFORMED));
}

#[test]
fn dots_are_not_names_but_may_stand_in_them() {
    for path in ["/.", "/..", "/fares/.", "/fares/..", "/./fares", "/../x"] {
        assert_eq!(stat(path.as_bytes()), no(MALFORMED), "{path}");
    }
    for path in ["/...", "/.x", "/x.", "/..x", "/. "] {
        assert_eq!(stat(path.as_bytes()), stopped(WELL_FORMED, 1), "{path}");
    }
}

#[test]
fn any_byte_but_0_and_slash_stands_in_a_name() {
    for byte in 0..=255 {
        let expected = match byte {
            0 => no(MALFORMED),
            _ => stopped(WELL_FORMED, 1), // a slash makes it two names
        };
        assert_eq!(stat(&[b'/', b'a', byte, b'b']), expected, "{byte}");
    }
    assert_eq!(stat(b"/fares\0"), no(MALFORMED));
}

#[test]
fn no_slash_follows_the_last_name() {
    for path in ["/fares/", "/fares//", "//fares/", "/fares/now/"] {
        assert_eq!(stat(path.as_bytes()), no(MALFORMED), "{path}");
    }
}

#[test]
fn a_name_is_not_taken_for_its_beginning() {
    assert_eq!(stat(b"/fare"), stopped(6, 1));
    assert_eq!(stat(b"/faress"), stopped(6, 1));
    assert_eq!(stat(b"/Fares"), stopped(6, 1));
}

#[test]
fn a_name_of_14_bytes_is_found_whole() {
    let mut console = Console::new();
    assert_eq!(console.create(1, "/fares/12345678901234", 0), Ok(4));
    assert_eq!(console.stat(1, "/fares/1234567890123"), Err((6, 2)));
    assert!(console.stat(1, "/fares/12345678901234").is_ok());
}

#[test]
fn a_walk_counts_names_and_not_slashes() {
    let mut console = Console::new();
    assert_eq!(console.open(2, "///fares//now/////x", 1), stopped(7, 3));
    assert_eq!(console.open(2, "//key//x", 1), stopped(7, 2));
}

#[test]
fn both_of_a_links_paths_are_read() {
    let mut console = Console::new();
    assert_eq!(console.link(1, "/fares/now", "/fares/x/"), no(3));
    assert_eq!(console.link(1, "/fares/now/", "/fares/x"), no(3));
    assert_eq!(console.link(1, "/fares/now", "x"), no(3));
    assert_eq!(console.link(1, "/fares/now", ""), no(3));
}

#[test]
fn both_of_a_renames_paths_are_read() {
    let long = format!("/{}", "x".repeat(15));
    let longest = "/".repeat(65);
    let deep = "/d".repeat(9);
    let bad = [
        "", "x", "/x/", "/.", "/x/..", "/x\0", "/", "//", &long, &longest, &deep,
    ];
    for path in bad {
        let mut console = Console::new();
        assert_eq!(console.rename(1, "/fares/now", path), no(3), "{path}");
        assert_eq!(console.rename(1, path, "/fares/x"), no(3), "{path}");
        assert_eq!(console.rename(1, path, path), no(3), "{path}");
    }
}
