//! The name "rom": in the root it is taken, elsewhere it is a name as others.

use crate::console::{request, Console, DIRECTORY, FILE_LENGTH, PLAIN, SYMLINK};
use crate::steps::{no, outcome, Outcome};

/// All that a directory lists, as user 0 sees it.
fn listed(console: &mut Console, path: &str) -> Vec<String> {
    (0..)
        .map_while(|index| console.list(0, path, index).unwrap())
        .map(|name| String::from_utf8(name).unwrap())
        .collect()
}

#[test]
fn the_root_lists_it_and_does_not_count_it() {
    for mut console in [Console::new(), Console::talking()] {
        assert_eq!(listed(&mut console, "/"), ["fares", "key", "rom"]);
        assert_eq!(listed(&mut console, "/fares"), ["now"]);
        let root = [DIRECTORY, 0, 1, 0o755, 0, 2, 0, 0];
        assert_eq!(console.stat(2, "/"), Ok(root));
    }
    let mut empty = Console::empty();
    empty.rom = Console::talking().rom;
    assert!(empty.is_sound());
    assert_eq!(empty.length(0), 0);
}

#[test]
fn it_is_listed_in_byte_order() {
    let mut console = Console::talking();
    for name in ["z", "romb", "ro", "rol", "ron", "rom\u{1}", "ROM", "\u{7f}"] {
        assert!(console.create(0, &format!("/{name}"), 0).is_ok());
    }
    let names = [
        "ROM", "fares", "key", "ro", "rol", "rom", "rom\u{1}", "romb", "ron", "z", "\u{7f}",
    ];
    assert_eq!(listed(&mut console, "/"), names);
    assert_eq!(console.length(0), 10);
}

#[test]
fn a_full_root_lists_17_names() {
    let mut console = Console::talking();
    for slot in 4..18 {
        let path = format!("/z{slot:02}");
        assert_eq!(console.create(0, &path, 0), Ok(slot));
    }
    assert_eq!(console.length(0), 16);
    let names = listed(&mut console, "/");
    assert_eq!(names.len(), 17);
    assert_eq!(names[..4], ["fares", "key", "rom", "z04"]);
    assert_eq!(console.list(0, "/", 16), Ok(Some(b"z17".to_vec())));
    assert_eq!(console.list(0, "/", 17), Ok(None));
    assert_eq!(console.create(0, "/x", 0), no(13));
    assert_eq!(console.create(0, "/rom", 0), no(11)); // before 13
    assert_eq!(console.stat(0, "/rom").unwrap()[FILE_LENGTH], 3);
}

/// The calls that make a name, each with this one in this place.
fn make_each(console: &Console, process: u8, path: &str) -> [Outcome; 5] {
    [2, 3, 6, 18, 20].map(|call| {
        let mut console = console.clone();
        let (first, second) = match call {
            6 | 20 => ("/fares/now", path),
            _ => (path, "/key"),
        };
        let answer = console.call(
            request(process, call),
            first.as_bytes(),
            second.as_bytes(),
            &mut [],
        );
        outcome(&answer)
    })
}

#[test]
fn in_the_root_it_is_there_already() {
    for console in [Console::new(), Console::talking()] {
        for process in 0..3 {
            let refused = [no(11); 5]; // also where the root's bits would be 9
            assert_eq!(make_each(&console, process, "/rom"), refused);
            assert_eq!(make_each(&console, process, "///rom"), refused);
        }
    }
}

#[test]
fn the_roots_three_checks_come_before_it() {
    let mut console = Console::talking();
    console.set_bits(0, 0o744);
    assert_eq!(make_each(&console, 2, "/rom")[0], Err((9, 1)));
    assert_eq!(console.stat(2, "/rom"), Err((9, 1)));
    assert_eq!(console.stat(2, "/rom/00"), Err((9, 1)));
    console.set_bits(0, 0o755);
    console.set_label(0, 3);
    assert_eq!(make_each(&console, 2, "/rom")[0], Err((10, 1)));
    assert_eq!(console.stat(0, "/rom/00"), Err((10, 1)));
}

#[test]
fn other_names_in_the_root_are_free() {
    let console = Console::talking();
    for name in ["ROM", "Rom", "ro", "romm", "rom.", "rom ", " rom", "mor"] {
        let made = make_each(&console, 0, &format!("/{name}"));
        assert_eq!(made, [Ok(4), Ok(4), Ok(0), Ok(4), Ok(0)], "{name}");
    }
}

#[test]
fn elsewhere_it_is_free() {
    let mut console = Console::talking();
    let made = make_each(&console, 1, "/fares/rom");
    assert_eq!(made, [Ok(4), Ok(4), Ok(0), Ok(4), Ok(0)]);

    assert_eq!(console.make_directory(1, "/fares/rom", 0o755), Ok(4));
    assert_eq!(console.create(1, "/fares/rom/00", 0o744), Ok(5));
    assert_eq!(console.create(1, "/fares/rom/rom", 0o744), Ok(6));
    assert_eq!(listed(&mut console, "/fares"), ["now", "rom"]);
    assert_eq!(listed(&mut console, "/fares/rom"), ["00", "rom"]);
    let record = [PLAIN, 10, 1, 0o744, 0, 0, 1, 0];
    assert_eq!(console.stat(2, "/fares/rom/00"), Ok(record));
    assert_eq!(console.open(1, "/fares/rom/00", 3), Ok(0));
    assert_eq!(console.write(1, 0, b"mine"), Ok(4));
    assert_eq!(console.unlink(1, "/fares/rom/00"), Ok(0));
    assert_eq!(console.unlink(1, "/fares/rom/rom"), Ok(0));
    assert_eq!(console.remove_directory(1, "/fares/rom"), Ok(0));
}

/// A console whose root stores the name, for a file of this kind in slot 4.
fn storing(kind: u32, dirent: usize) -> Console {
    let mut console = Console::talking();
    console.set_dirent(0, dirent, b"rom", 4);
    console.set_field(0, FILE_LENGTH, 3);
    match kind {
        SYMLINK => {
            console.set_file(4, [SYMLINK, 0, 1, 0, 0, 1, 1, 0]);
            console.set_bytes(4, b"/");
        }
        _ => console.set_file(4, [kind, 0, 1, 0o755, 0, 0, 1, 0]),
    }
    console
}

#[test]
fn a_root_that_stores_it_is_unsound() {
    for kind in [PLAIN, DIRECTORY, SYMLINK] {
        for dirent in 2..16 {
            let mut console = storing(kind, dirent);
            assert!(!console.is_sound());
            let before = console.clone();
            let answer = console.raw(request(0, 9), b"/fares", b"", &mut []);
            assert_eq!(outcome(&answer), no(1));
            assert_eq!(console, before);
            // But for its name the store is sound.
            console.set_dirent(0, dirent, b"Rom", 4);
            assert!(console.is_sound());
            console.set_dirent(0, dirent, b"rom", 4);
            console.rom.clear();
            assert!(!console.is_sound());
        }
    }
}

#[test]
fn another_directory_that_stores_it_is_sound() {
    let mut console = Console::talking();
    console.set_dirent(1, 0, b"rom", 2);
    assert!(console.is_sound());
    console.set_dirent(0, 1, b"rom", 3);
    assert!(!console.is_sound());
}
