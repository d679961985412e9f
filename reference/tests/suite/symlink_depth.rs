//! Directories that symbolic links would let lie too deep.

use crate::console::{Console, SLOTS};
use crate::steps::{no, stopped};

/// Directories /d, /d/d and so on, 7 names deep in slots 4 to 10, with /deep
/// leading to the last of them and /top to the root.
fn deep() -> Console {
    let mut console = Console::open_policy();
    for depth in 1..=7 {
        let path = "/d".repeat(depth);
        assert!(console.make_directory(0, &path, 0o777).is_ok());
    }
    assert_eq!(console.symlink(0, "/deep", &"/d".repeat(7)), Ok(11));
    assert_eq!(console.symlink(0, "/top", "///"), Ok(12));
    console
}

/// As above, with /deep/e in slot 13, 8 names deep.
fn deepest() -> Console {
    let mut console = deep();
    assert_eq!(console.make_directory(0, "/deep/e", 0o777), Ok(13));
    console
}

#[test]
fn a_directory_may_lie_8_names_deep_and_not_9() {
    let mut console = deepest();
    let path = format!("{}/e", "/d".repeat(7));
    assert_eq!(console.stat(2, &path), Ok(console.file(13)));
    assert_eq!(console.make_directory(0, "/deep/e/f", 0o777), no(15));
    assert_eq!(console.make_directory(2, "/top/deep/e/f", 0o777), no(15));
}

#[test]
fn other_files_may_lie_9_deep() {
    let mut console = deepest();
    assert_eq!(console.create(0, "/deep/e/f", 0o777), Ok(14));
    assert_eq!(console.symlink(0, "/deep/e/l", "/deep/e/f"), Ok(15));
    assert_eq!(console.link(0, "/deep/e/f", "/deep/e/g"), Ok(0));
    assert_eq!(console.open(2, "/deep/e/l", 1), Ok(0));
    assert_eq!(console.unlink(0, "/deep/e/l"), Ok(0));
    assert_eq!(console.unlink(0, "/deep/e/f"), Ok(0));
}

#[test]
fn depth_is_where_the_directory_lies_and_not_how_it_is_reached() {
    let mut console = deep();
    // 8 names, of which the first leads back to the root.
    let path = format!("/top{}/x", "/d".repeat(6));
    assert_eq!(console.make_directory(0, &path, 0o777), Ok(13));
    let path = format!("/deep/up{}/y", "/d".repeat(5));
    assert_eq!(console.symlink(0, "/deep/up", "/"), Ok(14));
    assert_eq!(console.make_directory(0, &path, 0o777), Ok(15));
    assert_eq!(console.symlink(0, "/further", "/top/deep"), Ok(16));
    assert_eq!(console.make_directory(0, "/further/e", 0o777), Ok(17));
    assert_eq!(console.make_directory(0, "/further/e/f", 0o777), no(15));
    assert_eq!(console.symlink(0, "/last", "/further/e"), Ok(18));
    assert_eq!(console.make_directory(0, "/last/f", 0o777), no(15));
    assert_eq!(console.make_directory(0, "/last/f/g", 0o777), stopped(6, 2));
    assert_eq!(console.make_directory(0, "/top/f", 0o777), Ok(19));
}

#[test]
fn too_deep_comes_after_11_9_and_10() {
    let mut console = deepest();
    assert_eq!(console.create(0, "/deep/e/f", 0o777), Ok(14));
    console.set_bits(13, 0o744);
    console.set_label(13, 3);
    assert_eq!(console.make_directory(2, "/deep/e/f", 0), stopped(9, 3));
    console.set_bits(13, 0o755);
    console.policy[16 * 2 + 3] = 4;
    assert_eq!(console.make_directory(2, "/deep/e/f", 0), stopped(10, 3));
    console.policy[16 * 2 + 3] = 1;
    assert_eq!(console.make_directory(2, "/deep/e/f", 0), no(11));
    assert_eq!(console.make_directory(2, "/deep/e/x", 0), no(9));
    console.set_bits(13, 0o777);
    assert_eq!(console.make_directory(2, "/deep/e/x", 0), no(10));
    console.policy[16 * 2 + 3] = 3;
    assert_eq!(console.make_directory(2, "/deep/e/x", 0), no(15));
    assert_eq!(console.make_directory(2, "/deep/e/x", 512), no(3));
}

#[test]
fn too_deep_comes_before_a_full_directory() {
    let mut console = deepest();
    for slot in 14..30 {
        let path = format!("/deep/e/{slot}");
        assert_eq!(console.create(0, &path, 0), Ok(slot));
    }
    assert_eq!(console.create(0, "/deep/e/x", 0), no(13));
    assert_eq!(console.symlink(0, "/deep/e/x", "/"), no(13));
    assert_eq!(console.make_directory(0, "/deep/e/x", 0), no(15));
}

#[test]
fn too_deep_comes_before_a_full_store() {
    let mut console = deepest();
    for slot in 14..SLOTS {
        let directory = match (slot - 14) / 15 {
            7 => "/fares".into(),
            above => "/d".repeat(above + 1),
        };
        let path = format!("{directory}/{slot}");
        assert_eq!(console.create(0, &path, 0), Ok(slot as u32));
    }
    assert_eq!(console.create(0, "/x", 0), no(13));
    assert_eq!(console.make_directory(0, "/x", 0), no(13));
    assert_eq!(console.make_directory(0, "/deep/e/x", 0), no(15));
}
