//! Answers of a script in words: each beside its exact form, and how many of each refusal.

use crate::answers::{self, Told};
use crate::block;
use crate::pieces::Lost;
use mritvelja::layout::*;
use mritvelja::{calls, refusals};
use std::collections::BTreeMap;

const LINES: [&str; 3] = ["answer=", "value=", "data="];

/// Puts a line in words before each answer: its number, the process, the call and the answer.
pub fn explain(script: &[u8], answers: &[u8]) -> Result<Vec<u8>, Lost> {
    let (mut script, mut answers) = (script, answers);
    let mut explained = Vec::new();
    for number in 1.. {
        if answers.is_empty() {
            break;
        }
        let unexpected = || Lost::Unexpected(format!("answer {number} cannot be explained"));
        let block = block::parse(script).map_err(|_| unexpected())?;
        let (words, size) = answer_words(block.call, answers).ok_or_else(unexpected)?;
        let (process, asked) = (block.process, block.words());
        let line = format!("# {number}: process {process}, {asked}: {words}\n");
        explained.try_reserve(line.len() + size)?;
        explained.extend(line.as_bytes());
        explained.extend(&answers[..size]);
        script = &script[block.size..];
        answers = &answers[size..];
    }
    Ok(explained)
}

/// The first answer in words, and how many bytes it has.
fn answer_words(call: u16, answers: &[u8]) -> Option<(String, usize)> {
    let mut values = [&b""[..]; 3];
    let mut rest = answers;
    for (value, key) in values.iter_mut().zip(LINES) {
        let end = rest.iter().position(|&byte| byte == b'\n')?;
        *value = rest[..end].strip_prefix(key.as_bytes())?;
        rest = &rest[end + 1..];
    }
    let number = |text: &[u8]| std::str::from_utf8(text).ok()?.parse().ok();
    let data = block::from_hex(values[2])?;
    let told = Told {
        refusal: number(values[0])?,
        stop: 0,
        value: number(values[1])?,
        record: match call == calls::STAT.into() && !data.is_empty() {
            true => stat_record(&data)?,
            false => [0; FILE_WIDTH],
        },
        bytes: Some(&data),
    };
    Some((answers::words(call, &told), answers.len() - rest.len()))
}

/// Stat's fields, which are 1, 2, 2, 2, 1, 2, 2 and 4 bytes, little end first.
fn stat_record(data: &[u8]) -> Option<[u32; FILE_WIDTH]> {
    let sizes = [
        (FILE_KIND, 1),
        (FILE_OWNER, 2),
        (FILE_GROUP, 2),
        (FILE_BITS, 2),
        (FILE_LABEL, 1),
        (FILE_LENGTH, 2),
        (FILE_LINKS, 2),
        (FILE_VERSION, 4),
    ];
    let mut record = [0; FILE_WIDTH];
    let mut rest = data;
    for (column, size) in sizes {
        let (field, after) = rest.split_at_checked(size)?;
        record[column] = field
            .iter()
            .rev()
            .fold(0, |word, &byte| word << 8 | u32::from(byte));
        rest = after;
    }
    Some(record)
}

/// How many calls were refused with each refusal.
pub fn refused(answers: &[u8]) -> BTreeMap<u32, u64> {
    let mut counts = BTreeMap::new();
    for line in answers.split(|&byte| byte == b'\n') {
        let refusal = line.strip_prefix(LINES[0].as_bytes());
        let refusal = refusal.and_then(|text| std::str::from_utf8(text).ok()?.parse().ok());
        if let Some(refusal) = refusal.filter(|&refusal| refusal != refusals::GRANTED) {
            *counts.entry(refusal).or_insert(0) += 1;
        }
    }
    counts
}

#[cfg(test)]
mod tests {
    use super::*;

    const DAY: &[u8] = include_bytes!("../../examples/day.script");
    const ANSWERS: &[u8] = include_bytes!("../../examples/day.expected");

    #[test]
    fn the_day_is_explained_beside_its_answers() {
        let explained = String::from_utf8(explain(DAY, ANSWERS).unwrap()).unwrap();
        let is_words = |line: &&str| line.starts_with('#');
        let words: Vec<&str> = explained.lines().filter(is_words).collect();
        assert_eq!(words.len(), 50);
        for line in [
            "# 1: process 2, open /fares/now read: granted: descriptor 0",
            "# 2: process 2, read 0 16: granted: 5 bytes, \"2.40\\x0a\"",
            "# 3: process 2, read 0 16: granted: 0 bytes",
            "# 6: process 1, write 0 \"2.60\\x0a\": granted: 5 bytes",
            "# 7: process 1, read 0 16: refused: 5, not open for that direction",
            "# 14: process 2, stat /fares/now: granted: plain file, owner 10, group 1, bits 484 (owner read write execute, group read, others read), label 0, length 5, links 1, version 1",
            "# 37: process 0, symlink /today /fares/now: granted: slot 2",
            "# 38: process 2, readlink /today 64: granted: 10 bytes, \"/fares/now\"",
            "# 39: process 2, stat /today: granted: link, owner 0, group 1, bits 0 (owner none, group none, others none), label 0, length 10, links 1, version 1",
            "# 44: process 2, open /again read: refused: 15, over 8 links followed or directory over 8 names deep",
        ] {
            assert!(words.contains(&line), "{line}\n{words:#?}");
        }
        let exact: Vec<&str> = explained.lines().filter(|line| !is_words(line)).collect();
        assert_eq!(exact.join("\n") + "\n", String::from_utf8_lossy(ANSWERS));
    }

    #[test]
    fn refusals_are_counted() {
        let counts = refused(
            b"answer=0\nvalue=1\ndata=\nanswer=6\nvalue=0\ndata=\nanswer=6\nvalue=0\ndata=\n",
        );
        assert_eq!(counts, BTreeMap::from([(6, 2)]));
    }
}
