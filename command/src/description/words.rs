//! The words of a line: separated by blanks, bare or between quotes, with `\xNN` for
//! bytes that cannot stand for themselves. A word that begins with # begins a comment.

use crate::text;

fn is_blank(byte: u8) -> bool {
    matches!(byte, b' ' | b'\t')
}

/// The words of a line, without its comment.
pub fn split(line: &[u8]) -> Result<Vec<Vec<u8>>, String> {
    let mut words = Vec::new();
    let mut rest = line;
    loop {
        let blanks = rest.iter().take_while(|&&byte| is_blank(byte)).count();
        rest = &rest[blanks..];
        let (word, after) = match rest {
            [] | [b'#', ..] => return Ok(words),
            [b'"', quoted @ ..] => until_quote(quoted)?,
            _ => rest.split_at(rest.iter().take_while(|&&byte| !is_blank(byte)).count()),
        };
        words.push(unescape(word)?);
        rest = after;
    }
}

/// What stands before the closing quote, and what after it.
fn until_quote(text: &[u8]) -> Result<(&[u8], &[u8]), String> {
    let end = text.iter().position(|&byte| byte == b'"');
    let end = end.ok_or("a quote is not closed")?;
    match &text[end + 1..] {
        after @ ([] | [b' ' | b'\t', ..]) => Ok((&text[..end], after)),
        _ => Err("a blank is missing after a closing quote".into()),
    }
}

fn unescape(text: &[u8]) -> Result<Vec<u8>, String> {
    let mut bytes = Vec::with_capacity(text.len());
    let mut rest = text;
    while let [first, after @ ..] = rest {
        rest = after;
        match first {
            b'\\' => {
                let (byte, after) = hex(after)
                    .ok_or(r"a backslash must begin \xNN, with two digits 0 to 9 and a to f")?;
                bytes.push(byte);
                rest = after;
            }
            b'"' => return Err(r"a quote within a word must be written as \x22".into()),
            ..b' ' | 127 => return Err(format!(r"byte {first} must be written as \x{first:02x}")),
            _ => bytes.push(*first),
        }
    }
    Ok(bytes)
}

/// The byte that `xNN` at the beginning stands for, and what comes after it.
fn hex(text: &[u8]) -> Option<(u8, &[u8])> {
    let (digits, after) = text.strip_prefix(b"x")?.split_first_chunk::<2>()?;
    let digits = digits.map(|digit| char::from(digit).to_digit(16));
    let [Some(high), Some(low)] = digits else {
        return None;
    };
    Some((u8::try_from(16 * high + low).ok()?, after))
}

/// A path, between quotes only where it needs them.
pub fn path(path: &[u8]) -> String {
    match path.contains(&b' ') || path.contains(&b'"') {
        true => text::quote(path),
        false => text::readable(path),
    }
}
