//! How a path is written: well formed in several ways, or malformed.

use crate::chance::Chance;
use mritvelja::layout::PATH;

/// The path as it stands, or with runs of slashes where they fit.
pub fn written(chance: &mut Chance, path: &[u8]) -> Vec<u8> {
    if chance.percent(85) {
        return path.to_vec();
    }
    let mut longer = Vec::new();
    for &byte in path {
        longer.push(byte);
        if byte == b'/' && chance.one_in(2) {
            let run = chance.between(1, 3);
            longer.extend(vec![b'/'; run]);
        }
    }
    if longer.len() <= PATH {
        longer
    } else {
        path.to_vec()
    }
}

/// The path with slashes before it up to `length` bytes.
fn filled(path: &[u8], length: usize) -> Vec<u8> {
    let mut filled = vec![b'/'; length.saturating_sub(path.len())];
    filled.extend(path);
    filled
}

/// The path, but of the root nothing: names can then be put after it.
pub fn without_root(path: &[u8]) -> Vec<u8> {
    if path == b"/" {
        Vec::new()
    } else {
        path.to_vec()
    }
}

/// The path with one more name at its end.
pub fn below(path: &[u8], name: &[u8]) -> Vec<u8> {
    let mut longer = without_root(path);
    longer.push(b'/');
    longer.extend(name);
    longer
}

/// The path spoilt in one of the ways that paths go wrong, or at their limits.
pub fn odd(chance: &mut Chance, path: &[u8]) -> Vec<u8> {
    match chance.below(14) {
        0 => Vec::new(),
        1 => path[1..].to_vec(),
        2 => below(path, b""),
        3 => below(path, b"fifteen--bytes!"),
        4 => below(path, b"."),
        5 => below(path, b".."),
        6 => below(path, b"a\0b"),
        7 => filled(path, PATH),
        8 => filled(path, PATH + 1),
        9 => b"/a/b/c/d/e/f/g/h".to_vec(),
        10 => b"/a/b/c/d/e/f/g/h/i".to_vec(),
        11 => {
            let run = chance.between(1, PATH + 1);
            vec![b'/'; run]
        }
        12 => {
            let length = chance.below(90);
            chance.bytes(length)
        }
        _ => b"/".to_vec(),
    }
}
