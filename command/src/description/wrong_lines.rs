//! Each wrong line of a description by its number.

use super::{read, FIRST_LINE};
use mritvelja::sound;

/// The description of lines after the first, refused: why.
fn why(lines: &str) -> String {
    read(format!("{FIRST_LINE}\n{lines}").as_bytes()).expect_err(lines)
}

/// Lines that are wrong, and what is said of them.
const WRONG: &[(&str, &str)] = &[
    ("colour 1", "line 2: colour is none of process, rights,"),
    ("\n\nprocess", "line 4: nothing follows process"),
    (
        "process 8",
        "line 2: process is 8, not a number from 0 to 7",
    ),
    ("process +1", "line 2: process is +1, not a number"),
    (
        "process 1 user 65536",
        "line 2: user is 65536, not a number from 0 to 65535",
    ),
    (
        "process 1 group 65536",
        "line 2: group is 65536, not a number from 0 to 65535",
    ),
    (
        "file /a group 65536",
        "line 2: group is 65536, not a number from 0 to 65535",
    ),
    (
        "file /a bits read",
        "line 2: bits is read, not OWNER:GROUP:OTHERS, each none or some of read, write and execute",
    ),
    (
        "process 1 colour 2",
        "line 2: colour is no field of a line process",
    ),
    ("process 1 user 1 user 1", "line 2: user is given twice"),
    ("process 1 user", "line 2: nothing follows user"),
    (
        "process 1\n# again\nprocess 1",
        "line 4: process 1 stands in line 2 already",
    ),
    (
        "rights 0 over 16 allow read",
        "line 2: over is 16, not a number from 0 to 15",
    ),
    (
        "rights 0 over 1 allow search",
        "line 2: allow is search, not none or some of",
    ),
    ("rights 0 allow read", "line 2: over is missing"),
    (
        "rights 0 over 0\nrights 0 over 0",
        "line 3: rights 0 over 0 stands in line 2 already",
    ),
    (
        "transition 0 by 1 to 255",
        "line 2: to is 255, not a number from 0 to 15",
    ),
    (
        "directory /\ndirectory /",
        "line 3: directory / stands in line 2 already",
    ),
    ("file a", "line 2: a path begins with a slash"),
    ("file a/b", "line 2: a is no directory of a line before"),
    ("file /a/b", "line 2: /a is no directory of a line before"),
    (
        "file /a\nfile /a/b",
        "line 3: /a is no directory of a line before",
    ),
    ("directory /d/", "line 2: \"\" is no name"),
    ("file /..", "line 2: \"..\" is no name"),
    (
        "file /fifteen-letters",
        "line 2: \"fifteen-letters\" is no name",
    ),
    ("file /a\\x00", "line 2: \"a\\x00\" is no name"),
    (
        "directory /rom",
        "line 2: /rom is reserved for the factory part, which is in no description",
    ),
    ("file /rom", "line 2: /rom is reserved"),
    ("symlink /rom to /a", "line 2: /rom is reserved"),
    ("file /rom/00 data x", "line 2: /rom is reserved"),
    ("file /a\nlink /rom to /a", "line 3: /rom is reserved"),
    ("link /a to /rom/00", "line 2: /rom is reserved"),
    ("open 0 path /rom/00 mode read", "line 2: /rom is reserved"),
    (
        "open 0 slot 128 mode read",
        "line 2: slot is 128, not a number from 0 to 127",
    ),
    ("file /a\nfile /a", "line 3: /a stands in a line before"),
    (
        "file /a entry 1\nfile /b entry 1",
        "line 3: entry 1 of the directory is taken",
    ),
    (
        "file /a slot 1\nfile /b slot 1",
        "line 3: slot 1 stands in line 2 already",
    ),
    ("file /a slot 0", "line 2: slot 0 is the root's"),
    (
        "file /a slot 128",
        "line 2: slot is 128, not a number from 0 to 127",
    ),
    ("file /a data \"x", "line 2: a quote is not closed"),
    (
        "file /a data \"x\"y",
        "line 2: a blank is missing after a closing quote",
    ),
    (
        "file /a data x\"y",
        "line 2: a quote within a word must be written as \\x22",
    ),
    ("file /a data \\n", "line 2: a backslash must begin \\xNN"),
    ("file /a data \\xg0", "line 2: a backslash must begin \\xNN"),
    (
        "file /a data x\r",
        "line 2: byte 13 must be written as \\x0d",
    ),
    (
        "directory /a\nlink /b to /a",
        "line 3: /a is no file of a line before",
    ),
    ("symlink /a", "line 2: to is missing"),
    (
        "symlink /a to b",
        "line 2: to is b, not a path: it does not begin with a slash",
    ),
    (
        "symlink /a to \"\"",
        "line 2: to is , not a path: it has no bytes",
    ),
    (
        "symlink /a to /b/",
        "line 2: to is /b/, not a path: it has a slash after its last name",
    ),
    (
        "symlink /a to /\\x1b\\x00",
        "line 2: to is /\\x1b\\x00, not a path: \"\\x1b\\x00\" is no name",
    ),
    (
        "symlink /a to /b bits none:none:none",
        "line 2: bits is no field of a line symlink",
    ),
    (
        "symlink /a to /b data x",
        "line 2: data is no field of a line symlink",
    ),
    ("symlink / to /b", "line 2: \"\" is no name"),
    (
        "symlink /a to /\nfile /a/b",
        "line 3: /a is no directory of a line before",
    ),
    (
        "symlink /a to /b\nlink /c to /a",
        "line 3: /a is no file of a line before",
    ),
    (
        "file /b\nsymlink /a to /b\nopen 0 path /a mode read",
        "line 4: /a is no file of a line before",
    ),
    ("unnamed 5", "line 2: no open file has this file"),
    ("free 5", "line 2: version is missing"),
    (
        "free 5 version 1\nfile /a slot 5",
        "line 3: slot 5 stands in line 2 already",
    ),
    (
        "open 0 path /a mode read",
        "line 2: /a is no file of a line before",
    ),
    (
        "open 0 slot 3 mode read",
        "line 2: slot 3 is of no file of a line before",
    ),
    (
        "open 0 mode read",
        "line 2: either path or slot must say what is open",
    ),
    (
        "file /a\nopen 0 path /a mode rw",
        "line 3: mode is rw, not read, write, both or append",
    ),
    (
        "file /a\nopen 0 path /a mode read",
        "line 3: no descriptor holds this open file",
    ),
    (
        "file /a\nopen 0 path /a mode read offset 513",
        "line 3: offset is 513, not a number from 0 to 512",
    ),
    (
        "descriptor 0 process 0 open 0",
        "line 2: process 0 stands in no line before",
    ),
    (
        "process 0\ndescriptor 0 process 0 open 0",
        "line 3: open 0 stands in no line before",
    ),
];

#[test]
fn a_wrong_line_is_named() {
    for (lines, expected) in WRONG {
        let why = why(lines);
        assert!(why.starts_with(expected), "{lines}\n{why}");
    }
    assert!(read(b"process 1\n")
        .unwrap_err()
        .starts_with("line 1 is not \"mritvelja description 2\""));
    assert!(read(b"mritvelja description 1\nprocess 1\n")
        .unwrap_err()
        .starts_with("line 1 is \"mritvelja description 1\", a form without groups"));
}

#[test]
fn what_is_full_is_named() {
    let many =
        |count, line: fn(usize) -> String| (0..count).map(line).collect::<Vec<_>>().join("\n");
    let names = many(17, |n| format!("file /{n}"));
    assert_eq!(why(&names), "line 18: the directory has 16 names already");
    let slots = many(8, |n| format!("directory /{n}"))
        + "\n"
        + &many(120, |n| format!("file /{}/{n}", n / 16));
    assert_eq!(why(&slots), "line 129: all 128 slots are taken");
    let deep = many(9, |n| format!("directory {}", "/d".repeat(n + 1)));
    assert_eq!(why(&deep), "line 10: a directory is at most 8 names deep");
    let long = format!("file /a data {}", "x".repeat(513));
    assert_eq!(why(&long), "line 2: data has 513 bytes, more than 512");
}

#[test]
fn the_name_rom_is_free_elsewhere() {
    let text =
        format!("{FIRST_LINE}\ndirectory /d\nfile /d/rom\nfile /rom1\nsymlink /r to /rom/00");
    assert!(sound(&read(text.as_bytes()).unwrap()));
}
