//! Paths looked up from the root on, as the host sees them, and what form they have.

use crate::seen;
use crate::text;
use mritvelja::layout::*;
use mritvelja::Tables;

/// The slot of the store to which names lead, one after the other. No link is followed.
pub fn slot_at<'a>(tables: &Tables, mut names: impl Iterator<Item = &'a [u8]>) -> Option<usize> {
    let slot = names.try_fold(ROOT, |directory, name| entry(tables, directory, name));
    slot.filter(|&slot| slot < SLOTS)
}

/// The file that a directory names so.
fn entry(tables: &Tables, directory: usize, name: &[u8]) -> Option<usize> {
    if !seen::is_kind(tables, directory, DIRECTORY) {
        return None;
    }
    let mut names = seen::names(tables, directory).into_iter();
    names.find_map(|(other, slot)| (other == name).then_some(slot))
}

/// The names of a path: slashes in a row count as one, as they do for calls.
fn names(path: &[u8]) -> impl Iterator<Item = &[u8]> {
    let names = path.split(|&byte| byte == b'/');
    names.filter(|name| !name.is_empty())
}

/// The file to which a path leads. Links are followed, at the last name too, as by an open; else why it leads nowhere.
pub fn followed(tables: &Tables, path: &[u8]) -> Result<usize, String> {
    let mut follows = FOLLOWS;
    follow(tables, path, &mut follows)?.ok_or_else(|| "name missing".into())
}

/// As [`followed`], with so many follows left. Nothing where a name of the path itself is missing.
fn follow(tables: &Tables, path: &[u8], follows: &mut usize) -> Result<Option<usize>, String> {
    let mut at = ROOT;
    for name in names(path) {
        let Some(found) = entry(tables, at, name) else {
            return Ok(None);
        };
        at = found;
        if seen::is_kind(tables, at, LINK) {
            let left = follows.checked_sub(1);
            *follows = left.ok_or_else(|| format!("more than {FOLLOWS} links on the way"))?;
            let target = tables.bytes(at);
            at = follow(tables, target, follows)?.ok_or_else(|| {
                format!("name missing behind a link to {}", text::readable(target))
            })?;
        }
    }
    Ok(Some(at))
}

/// Why bytes are no path that a call takes; nothing if they are one.
pub fn malformed(path: &[u8]) -> Option<String> {
    let said = |why: &str| Some(why.into());
    match path {
        [] => return said("it has no bytes"),
        [b'/', ..] if path.len() <= PATH => {}
        [b'/', ..] => return Some(format!("it has {} bytes, more than {PATH}", path.len())),
        _ => return said("it does not begin with a slash"),
    }
    if path.ends_with(b"/") && names(path).next().is_some() {
        return said("it has a slash after its last name");
    }
    if names(path).count() > NAMES {
        return Some(format!("it has more than {NAMES} names"));
    }
    let wrong = names(path).find(|name| !is_name(name))?;
    Some(not_a_name(wrong))
}

/// Whether bytes without a slash are a name.
pub fn is_name(name: &[u8]) -> bool {
    (1..=NAME).contains(&name.len()) && !name.contains(&0) && name != b"." && name != b".."
}

/// Says of bytes that they are no name.
pub fn not_a_name(bytes: &[u8]) -> String {
    let shown = text::readable(bytes);
    format!(
        "\"{shown}\" is no name: it has 1 to {NAME} bytes, none of them 0, and is neither . nor .."
    )
}

#[cfg(test)]
mod tests {
    use super::*;
    use crate::rom;
    use mritvelja::{calls, modes, refusals, test_console, Answer, Request};
    use std::collections::BTreeMap;

    /// Makes a link in the root, at an entry that is free.
    fn add_link(tables: &mut Tables, slot: usize, name: &str, target: &[u8]) {
        let entry = tables.dirents_in_use(ROOT).count();
        *tables.file_mut(slot) = [LINK, 0, 1, 0, 0, target.len() as u32, 1, 0];
        tables.block_mut(slot)[..target.len()].copy_from_slice(target);
        tables.set_dirent(ROOT, entry, name.as_bytes(), slot);
        tables.file_mut(ROOT)[FILE_LENGTH] += 1;
    }

    #[test]
    fn links_are_followed_before_the_last_name_and_there() {
        let mut tables = test_console();
        add_link(&mut tables, 10, "f", b"//fares");
        add_link(&mut tables, 11, "today", b"/f///now");
        add_link(&mut tables, 12, "top", b"/");
        for (path, slot) in [
            ("/today", 2),
            ("/f", 1),
            ("/f/now", 2),
            ("//f///now", 2),
            ("/top", ROOT),
            ("/top/top/today", 2),
        ] {
            assert_eq!(followed(&tables, path.as_bytes()), Ok(slot), "{path}");
        }
        let today = [&b"today"[..]];
        assert_eq!(slot_at(&tables, today.into_iter()), Some(11));
    }

    #[test]
    fn prompts_are_found_in_rom() {
        let mut tables = test_console();
        add_link(&mut tables, 10, "r", b"//rom");
        add_link(&mut tables, 11, "hello", b"/r/00");
        tables.rom = b"\x05\0hello\0\0".to_vec();
        for (path, slot) in [
            ("/rom", ROM_FIRST + PROMPTS),
            ("/rom/00", ROM_FIRST),
            ("/r///01", ROM_FIRST + 1),
            ("/hello", ROM_FIRST),
        ] {
            assert_eq!(followed(&tables, path.as_bytes()), Ok(slot), "{path}");
        }
        for path in ["/rom/02", "/rom/0", "/rom/000", "/rom/00/x", "/fares/rom"] {
            let why = followed(&tables, path.as_bytes());
            assert_eq!(why, Err("name missing".into()), "{path}");
        }
        let rom = [rom::NAME].into_iter();
        assert_eq!(slot_at(&tables, rom), None);
    }

    #[test]
    fn a_link_that_leads_nowhere_is_told_apart() {
        let mut tables = test_console();
        add_link(&mut tables, 10, "lost", b"/fares/\x1bno");
        add_link(&mut tables, 11, "lost2", b"/lost/x");
        let why = |path: &str| followed(&tables, path.as_bytes()).unwrap_err();
        assert_eq!(why("/no"), "name missing");
        assert_eq!(why("/key/x"), "name missing");
        assert_eq!(why("/lost"), "name missing behind a link to /fares/\\x1bno");
        assert_eq!(why("/lost/x"), why("/lost"));
        assert_eq!(why("/lost2"), why("/lost"));
    }

    #[test]
    fn eight_links_are_followed_and_no_ninth() {
        let mut tables = test_console();
        add_link(&mut tables, 10, "l0", b"/fares/now");
        for link in 1..9 {
            let target = format!("/l{}", link - 1);
            add_link(
                &mut tables,
                10 + link,
                &format!("l{link}"),
                target.as_bytes(),
            );
        }
        add_link(&mut tables, 20, "self", b"/self");
        add_link(&mut tables, 21, "r", b"/");
        assert_eq!(followed(&tables, b"/l7"), Ok(2));
        assert_eq!(followed(&tables, b"/r/r/r/r/r/r/r/r"), Ok(ROOT));
        for path in [
            &b"/l8"[..],
            b"/self",
            b"/self/x",
            b"/r/l7",
            b"/r/r/r/r/r/r/r/r/r",
        ] {
            let why = followed(&tables, path).unwrap_err();
            assert_eq!(why, "more than 8 links on the way");
        }
    }

    /// A path of one to four names by chance.
    fn some_path(chance: &mut u64) -> Vec<u8> {
        const NAMES: [&[u8]; 8] = [b"fares", b"now", b"key", b"a", b"b", b"c", b"rom", b"00"];
        let mut below = |limit: usize| {
            *chance ^= *chance << 13;
            *chance ^= *chance >> 7;
            *chance ^= *chance << 17;
            (*chance >> 20) as usize % limit
        };
        let names = 1 + below(4);
        (0..names)
            .flat_map(|_| [b"/", NAMES[below(8)]].concat())
            .collect()
    }

    /// A call by process 0, whom no bits refuse.
    fn ask(tables: &mut Tables, call: u8, path: &[u8], data: &[u8]) -> Answer {
        let request = Request {
            call,
            number: modes::READ,
            path,
            data,
            ..Request::default()
        };
        mritvelja::call(tables, &request, &mut [])
    }

    /// The test console with links by chance, of which no label refuses process 0 anything.
    fn some_links(chance: &mut u64) -> Tables {
        let mut tables = test_console();
        tables.rom = b"\x05\0hello".to_vec();
        tables.set_rights(0, 3, 7);
        for _ in 0..12 {
            let (path, target) = (some_path(chance), some_path(chance));
            ask(&mut tables, calls::SYMLINK, &path, &target);
        }
        tables
    }

    #[test]
    fn a_path_leads_where_an_open_leads() {
        let mut chance = 0x9e37_79b9_7f4a_7c15;
        let (mut counts, mut prompts) = (BTreeMap::new(), 0);
        for _ in 0..4_000 {
            let mut tables = some_links(&mut chance);
            let path = some_path(&mut chance);
            let said = followed(&tables, &path);
            let answer = ask(&mut tables, calls::OPEN, &path, b"");
            let opened = tables.open_file(0)[OPEN_SLOT] as usize;
            let is_agreed = match answer.refusal {
                refusals::GRANTED => said == Ok(opened),
                refusals::WRONG_KIND => {
                    said.is_ok_and(|slot| seen::is_kind(&tables, slot, DIRECTORY))
                }
                refusals::TOO_DEEP => said.is_err_and(|why| why.starts_with("more than 8")),
                _ => said.is_err_and(|why| why.starts_with("name missing")),
            };
            assert!(is_agreed, "{}: {answer:?}", text::readable(&path));
            prompts += u32::from(opened >= ROM_FIRST);
            *counts.entry(answer.refusal).or_insert(0) += 1;
        }
        let all = [
            refusals::GRANTED,
            refusals::NAME_MISSING,
            refusals::NOT_A_DIRECTORY,
            refusals::WRONG_KIND,
            refusals::TOO_DEEP,
        ];
        assert!(
            all.iter().all(|refusal| counts[refusal] >= 20),
            "{counts:?}"
        );
        assert!(prompts >= 20, "{prompts} prompts");
    }

    #[test]
    fn the_form_of_a_path() {
        for path in [
            &b"/"[..],
            b"//",
            b"/fares/now",
            b"//fares///now",
            b"/a/b/c/d/e/f/g/h",
            b"/fourteen bytes",
            b"/...",
            b"/\xff\n",
            &[b'/'; 64],
        ] {
            assert_eq!(malformed(path), None, "{path:?}");
            let answer = ask(&mut test_console(), calls::SYMLINK, b"/l", path);
            assert!(answer.is_granted(), "{path:?}");
        }
        for (path, why) in [
            (&b""[..], "it has no bytes"),
            (b"x", "it does not begin with a slash"),
            (b"/a/", "it has a slash after its last name"),
            (b"/a/b/c/d/e/f/g/h/i", "it has more than 8 names"),
            (b"/fifteen-letters", "\"fifteen-letters\" is no name"),
            (b"/a/./b", "\".\" is no name"),
            (b"/..", "\"..\" is no name"),
            (b"/a\0", "\"a\\x00\" is no name"),
            (&[b'/'; 65], "it has 65 bytes, more than 64"),
        ] {
            let said = malformed(path).unwrap();
            assert!(said.starts_with(why), "{said}");
            let answer = ask(&mut test_console(), calls::SYMLINK, b"/l", path);
            assert_eq!(answer.refusal, refusals::MALFORMED, "{said}");
        }
    }
}
