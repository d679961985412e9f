//! Runs a script of calls on the test console (docs/console.md), by the second program.

use std::io::{Read, Write};

use mritvelja::calls::{parts, reads, Field};
use reference::Request;
use stored::answers;
use stored::records::ROM_ROOM;
use stored::tables::{
    self, blank, Tables, BLOCK, FILE_WIDTH, LABELS, OPEN_FILE_WIDTH, PROCESS_WIDTH,
};

const LONGEST: usize = 512;

/// Each call's name, in the order of their numbers.
const NAMES: [&str; 20] = [
    "open", "create", "mkdir", "unlink", "rmdir", "link", "list", "chmod", "stat", "close", "read",
    "write", "seek", "dup", "fork", "exit", "exec", "symlink", "readlink", "rename",
];

/// A line that is not understood.
struct Broken;

type Line = Result<String, Broken>;

fn number(word: Option<&str>) -> Result<u32, Broken> {
    word.filter(|word| word.bytes().all(|byte| byte.is_ascii_digit()))
        .and_then(|word| word.parse().ok())
        .ok_or(Broken)
}

fn small<T: TryFrom<u32>>(word: Option<&str>) -> Result<T, Broken> {
    T::try_from(number(word)?).map_err(|_| Broken)
}

/// The bytes that a word writes, `\\xNN` being byte NN; none where there is no word.
fn text(word: Option<&str>) -> Result<Vec<u8>, Broken> {
    let mut rest = word.unwrap_or("").as_bytes();
    let mut bytes = Vec::new();
    while let [first, after @ ..] = rest {
        if *first == b'\\' {
            bytes.push(escaped(rest).ok_or(Broken)?);
            rest = &rest[4..];
        } else {
            bytes.push(*first);
            rest = after;
        }
    }
    if bytes.len() <= LONGEST {
        Ok(bytes)
    } else {
        Err(Broken)
    }
}

fn escaped(text: &[u8]) -> Option<u8> {
    let digits = text.get(..4)?.strip_prefix(b"\\x")?;
    let digits = std::str::from_utf8(digits).ok()?;
    let lower = digits
        .bytes()
        .all(|byte| matches!(byte, b'0'..=b'9' | b'a'..=b'f'));
    if lower {
        u8::from_str_radix(digits, 16).ok()
    } else {
        None
    }
}

struct Console<'a> {
    head: Vec<&'a str>,
    tables: Tables,
}

impl Console<'_> {
    /// The tables that the set lines of the head give.
    fn fresh(&mut self) -> Line {
        self.tables = blank();
        for line in self.head.clone() {
            let words: Vec<&str> = line.split(' ').filter(|word| !word.is_empty()).collect();
            if words.first() == Some(&"set") {
                self.set(&words[1..])?;
            }
        }
        Ok(String::new())
    }

    fn words(&mut self, table: &str) -> Option<(&mut [u32], usize)> {
        match table {
            "files" => Some((&mut self.tables.files, FILE_WIDTH)),
            "opens" => Some((&mut self.tables.open_files, OPEN_FILE_WIDTH)),
            "processes" => Some((&mut self.tables.processes, PROCESS_WIDTH)),
            _ => None,
        }
    }

    fn bytes(&mut self, table: &str) -> Option<(&mut [u8], usize)> {
        match table {
            "contents" => Some((&mut self.tables.contents, BLOCK)),
            "policy" => Some((&mut self.tables.policy, LABELS)),
            _ => None,
        }
    }

    /// Values from a field of a record on; what is past the table's end is not stored.
    fn set(&mut self, words: &[&str]) -> Line {
        let mut words = words.iter().copied();
        let table = words.next().ok_or(Broken)?;
        let record = number(words.next())? as usize;
        let field = number(words.next())? as usize;
        if table == "rom" {
            self.set_rom(BLOCK * record + field, &text(words.next())?);
            return Ok(String::new());
        }
        if let Some((table, width)) = self.words(table) {
            let values: Result<Vec<u32>, Broken> = words.map(|word| number(Some(word))).collect();
            put(table, width * record + field, &values?);
        } else {
            let (table, width) = self.bytes(table).ok_or(Broken)?;
            put(table, width * record + field, &text(words.next())?);
        }
        Ok(String::new())
    }

    /// The factory part from a byte on, up to where the text ends.
    fn set_rom(&mut self, at: usize, text: &[u8]) {
        self.tables.rom.resize(at.min(ROM_ROOM), 0);
        self.tables.rom.extend(text);
        self.tables.rom.truncate(ROM_ROOM);
    }

    fn show(&mut self, words: &[&str]) -> Line {
        let (table, width) = self.words(words.first().ok_or(Broken)?).ok_or(Broken)?;
        let record = number(words.get(1).copied())? as usize;
        let shown = table.iter().skip(width * record).take(width);
        Ok(shown.fold(":".to_string(), |line, word| format!("{line} {word}")))
    }

    fn call(&mut self, words: &[&str]) -> Line {
        let mut words = words.iter().copied();
        let process = small(words.next())?;
        let name = words.next();
        let known = NAMES.iter().position(|call| Some(*call) == name);
        let call: u8 = known.map_or_else(|| small(name), |at| Ok(at as u8 + 1))?;
        let mut request = Request {
            process,
            call,
            descriptor: 0,
            number: 0,
        };
        let (mut path, mut data) = (Vec::new(), Vec::new());
        for field in fields(call) {
            match field {
                Field::Descriptor => request.descriptor = small(words.next())?,
                Field::Number => request.number = small(words.next())?,
                Field::Path => path = text(words.next())?,
                Field::Data => data = text(words.next())?,
            }
        }
        let is_read = reads(call.into());
        let size = usize::from(if is_read { request.number } else { 0 });
        if words.next().is_some() || size > LONGEST {
            return Err(Broken);
        }
        let mut buffer = vec![0; size];
        let answer = tables::call(&mut self.tables, request, &path, &data, &mut buffer);
        let read = if is_read { answer.value } else { 0 };
        let bytes = &buffer[..read as usize];
        Ok(format!(": {}", answers::answer(&answer, bytes)))
    }

    fn borrow(&mut self, process: &str, words: &[&str]) -> Line {
        let &[descriptor, count] = words else {
            return Err(Broken);
        };
        let (process, descriptor) = (small(Some(process))?, small(Some(descriptor))?);
        let count: u16 = small(Some(count))?;
        let (answer, bytes) = tables::borrow(&mut self.tables, process, descriptor, count.into());
        Ok(format!(": {}", answers::answer(&answer, &bytes)))
    }

    fn line(&mut self, line: &str) -> Line {
        let words: Vec<&str> = line.split(' ').filter(|word| !word.is_empty()).collect();
        match words[..] {
            _ if line.is_empty() || line.starts_with('#') => Ok(String::new()),
            ["fresh", ..] => self.fresh(),
            ["set", ..] => self.set(&words[1..]),
            ["show", ..] => self.show(&words[1..]),
            [process, "borrow", ..] => self.borrow(process, &words[2..]),
            _ => self.call(&words),
        }
    }
}

/// What follows a call's name, in the order of a line; nothing behind an unknown call.
fn fields(call: u8) -> Vec<Field> {
    let parts = parts(call.into()).unwrap_or_default();
    let mut fields: Vec<Field> = parts.iter().map(|part| part.field()).collect();
    fields.sort();
    fields
}

fn put<T: Copy>(table: &mut [T], at: usize, values: &[T]) {
    for (place, value) in table.iter_mut().skip(at).zip(values) {
        *place = *value;
    }
}

fn main() -> std::io::Result<()> {
    let mut script = String::new();
    std::io::stdin().read_to_string(&mut script)?;
    let head = script.lines().take_while(|line| !line.is_empty()).collect();
    let mut console = Console {
        head,
        tables: blank(),
    };
    let mut out = std::io::stdout().lock();
    for (at, line) in script.lines().enumerate() {
        match console.line(line) {
            Ok(answer) => writeln!(out, "{line}{answer}")?,
            Err(Broken) => writeln!(out, "{line}: not understood, line {}", at + 1)?,
        }
    }
    Ok(())
}
