//! Runs stored calls on stored tables (docs/recorded.md), by the second program.

use std::io::{Read, Write};

use mritvelja::calls::reads;
use reference::{Answer, Request};
use stored::records::{BUFFER, BUFFER_BYTE, ROM_ROOM, ROOM};
use stored::tables::{borrowed, zero, Tables, SIZES};

struct Recorded {
    tables: Tables,
    sizes: [usize; 5],
}

fn short(bytes: &[u8], at: usize) -> usize {
    let byte = |at: usize| usize::from(bytes.get(at).copied().unwrap_or(0));
    byte(at) + 256 * byte(at + 1)
}

/// A place or a size.
fn place(bytes: &[u8], at: usize) -> usize {
    short(bytes, at) + 65_536 * short(bytes, at + 2)
}

fn words(bytes: &[u8]) -> Vec<u32> {
    bytes
        .chunks(4)
        .map(|chunk| {
            chunk
                .iter()
                .rev()
                .fold(0, |word, &byte| (word << 8) | u32::from(byte))
        })
        .collect()
}

fn put<T: Copy>(table: &mut [T], at: usize, values: &[T]) {
    for (place, value) in table.iter_mut().skip(at).zip(values) {
        *place = *value;
    }
}

/// FNV-1a in 32 bits, a word or a byte a turn.
fn digest(tables: &Tables, buffer: &[u8]) -> u32 {
    let bytes = |bytes: &[u8]| {
        bytes
            .iter()
            .map(|&byte| u32::from(byte))
            .collect::<Vec<u32>>()
    };
    let all = [
        tables.files.clone(),
        bytes(&tables.contents),
        tables.open_files.clone(),
        tables.processes.clone(),
        bytes(buffer),
    ];
    all.concat()
        .iter()
        .fold(2_166_136_261, |digest: u32, word| {
            (digest ^ word).wrapping_mul(16_777_619)
        })
}

fn line(answer: &Answer, read: &[u8], digest: u32) -> String {
    let mut line = format!("{} {} {} ", answer.refusal, answer.stop, answer.value);
    for field in answer.fields.iter().flatten() {
        line += &format!("{field} ");
    }
    let shown = &read[..read.len().min(8)];
    for byte in answer.name.iter().chain(shown) {
        line += &format!("{byte:02x}");
    }
    format!("{line}#{digest:08x}")
}

impl Recorded {
    fn new() -> Recorded {
        Recorded {
            tables: zero(ROOM),
            sizes: SIZES,
        }
    }

    fn set(&mut self, kind: u8, bytes: &[u8]) -> Option<()> {
        let at = place(bytes, 0);
        let values = bytes.get(4..).unwrap_or(&[]);
        match kind {
            0 => self.sizes = [0, 4, 8, 12, 16].map(|at| place(bytes, at)),
            1 => put(&mut self.tables.files, at, &words(values)),
            2 => put(&mut self.tables.contents, at, values),
            3 => put(&mut self.tables.open_files, at, &words(values)),
            4 => put(&mut self.tables.processes, at, &words(values)),
            5 => put(&mut self.tables.policy, at, values),
            7 => *self = Recorded::new(),
            8 => self.tables.rom = bytes[..bytes.len().min(ROM_ROOM)].to_vec(),
            _ => return None,
        }
        Some(())
    }

    fn call(&mut self, bytes: &[u8]) -> Option<String> {
        let [_, _, process, call, descriptor, low, high, length, rest @ ..] = bytes else {
            return None;
        };
        let (path, data) = rest.split_at_checked(usize::from(*length))?;
        let number = u16::from_le_bytes([*low, *high]);
        let request = Request {
            process: *process,
            call: *call,
            descriptor: *descriptor,
            number,
        };
        let mut buffer = vec![BUFFER_BYTE; short(bytes, 0).min(BUFFER)];
        let answer = self.answer(request, path, data, &mut buffer);
        let read = if reads((*call).into()) {
            &buffer[..answer.value as usize]
        } else {
            &[]
        };
        Some(line(&answer, read, digest(&self.tables, &buffer)))
    }

    fn answer(&mut self, request: Request, path: &[u8], data: &[u8], buffer: &mut [u8]) -> Answer {
        let [files, contents, open_files, processes, policy] = self.sizes;
        let tables = &mut self.tables;
        reference::call(
            lent(&mut tables.files, files),
            lent(&mut tables.contents, contents),
            lent(&mut tables.open_files, open_files),
            lent(&mut tables.processes, processes),
            lent(&mut tables.policy, policy),
            &tables.rom,
            request,
            path,
            data,
            buffer,
        )
    }

    fn borrow(&mut self, bytes: &[u8]) -> Option<String> {
        let &[process, descriptor, ref count @ ..] = bytes else {
            return None;
        };
        let count = u32::from_le_bytes(count.try_into().ok()?);
        let [files, contents, open_files, processes, policy] = self.sizes;
        let tables = &mut self.tables;
        let mut refusal = 0;
        let bytes = reference::borrow_read(
            lent(&mut tables.files, files),
            lent(&mut tables.contents, contents),
            lent(&mut tables.open_files, open_files),
            lent(&mut tables.processes, processes),
            lent(&mut tables.policy, policy),
            &tables.rom,
            process,
            descriptor,
            count,
            &mut refusal,
        );
        let (answer, bytes) = (borrowed(refusal, bytes), bytes.to_vec());
        Some(line(&answer, &bytes, digest(&self.tables, &bytes)))
    }

    /// The line that a record writes, if it writes one.
    fn record(&mut self, kind: u8, bytes: &[u8]) -> Option<Option<String>> {
        match kind {
            6 => self.call(bytes).map(Some),
            9 => self.borrow(bytes).map(Some),
            _ => self.set(kind, bytes).map(|()| None),
        }
    }
}

fn lent<T>(table: &mut [T], size: usize) -> &mut [T] {
    let size = size.min(table.len());
    &mut table[..size]
}

fn main() -> std::io::Result<()> {
    let mut input = Vec::new();
    std::io::stdin().read_to_end(&mut input)?;
    let mut out = std::io::BufWriter::new(std::io::stdout().lock());
    let mut recorded = Recorded::new();
    let mut rest = &input[..];
    let mut count = 0;
    while !rest.is_empty() {
        count += 1;
        let size = short(rest, 1);
        let bytes = rest.get(3..3 + size);
        match bytes.and_then(|bytes| recorded.record(rest[0], bytes)) {
            Some(Some(line)) => writeln!(out, "{line}")?,
            Some(None) => {}
            None => {
                writeln!(out, "broken: record {count}")?;
                break;
            }
        }
        rest = &rest[3 + size..];
    }
    Ok(())
}
