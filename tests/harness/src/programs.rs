//! The two programs, lent the same tables: the proved store and the second
//! program, with one form of answer.

use crate::action::{Action, Borrow};
use crate::call::Call;
use mritvelja::{Answer, Replayed, Request, Tables};

pub use mritvelja::{replay as store_replay, sound as store_sound};

/// One call on the proved store.
#[inline]
pub fn store_call(tables: &mut Tables, call: &Call, buffer: &mut [u8]) -> Answer {
    mritvelja::call(tables, &store_request(call), buffer)
}

/// One call on the proved store without the soundness test.
#[inline]
pub fn store_act(tables: &mut Tables, call: &Call, buffer: &mut [u8]) -> Answer {
    mritvelja::act(tables, &store_request(call), buffer)
}

#[inline]
fn store_request(call: &Call) -> Request<'_> {
    Request {
        process: call.process,
        call: call.call,
        descriptor: call.descriptor,
        number: call.number,
        path: &call.path,
        data: &call.data,
    }
}

fn reference_request(call: &Call) -> reference::Request {
    reference::Request {
        process: call.process,
        call: call.call,
        descriptor: call.descriptor,
        number: call.number,
    }
}

/// One call on the second program.
pub fn reference_call(tables: &mut Tables, call: &Call, buffer: &mut [u8]) -> reference::Answer {
    reference::call(
        &mut tables.files,
        &mut tables.contents,
        &mut tables.open_files,
        &mut tables.processes,
        &tables.policy,
        &tables.rom,
        reference_request(call),
        &call.path,
        &call.data,
        buffer,
    )
}

/// One call on the second program without the soundness test: for sound tables.
pub fn reference_act(tables: &mut Tables, call: &Call, buffer: &mut [u8]) -> reference::Answer {
    reference::act(
        &mut tables.files,
        &mut tables.contents,
        &mut tables.open_files,
        &mut tables.processes,
        &tables.policy,
        &tables.rom,
        reference_request(call),
        &call.path,
        &call.data,
        buffer,
    )
}

/// The second program's soundness test.
pub fn reference_sound(tables: &Tables) -> bool {
    reference::sound(
        &tables.files,
        &tables.contents,
        &tables.open_files,
        &tables.processes,
        &tables.policy,
        &tables.rom,
    )
}

/// A script on the second program.
pub fn reference_replay(
    tables: &mut Tables,
    script: &[u8],
    allowance: u32,
    output: &mut [u8],
) -> Replayed {
    let replayed = reference::replay(
        &mut tables.files,
        &mut tables.contents,
        &mut tables.open_files,
        &mut tables.processes,
        &tables.policy,
        &tables.rom,
        script,
        allowance,
        output,
    );
    Replayed {
        next: replayed.next,
        written: replayed.written,
        calls: replayed.calls,
        reason: replayed.reason.number(),
    }
}

/// The second program's answer in the store's form.
pub fn store_form(answer: reference::Answer) -> Answer {
    let mut name = [0; 16];
    name[..answer.name.len()].copy_from_slice(&answer.name);
    let mut fields = [0; 8];
    if let Some(stat) = answer.fields {
        fields[..stat.len()].copy_from_slice(&stat);
    }
    Answer {
        refusal: answer.refusal,
        stop: answer.stop,
        value: answer.value,
        name_length: answer.name.len() as u32,
        name,
        fields,
    }
}

/// A borrowing read's bytes, or why there are none.
pub type Borrowed<'a> = Result<&'a [u8], u32>;

/// A borrowing read on the proved store.
pub fn store_borrow<'a>(tables: &'a mut Tables, borrow: &Borrow) -> Borrowed<'a> {
    mritvelja::borrow_read(
        &tables.files,
        &tables.contents,
        &mut tables.open_files,
        &tables.processes,
        &tables.policy,
        &tables.rom,
        borrow.process,
        borrow.descriptor,
        borrow.count,
    )
}

/// A borrowing read on the second program.
pub fn reference_borrow<'a>(tables: &'a mut Tables, borrow: &Borrow) -> Borrowed<'a> {
    let mut refusal = 0;
    let bytes = reference::borrow_read(
        &tables.files,
        &tables.contents,
        &mut tables.open_files,
        &tables.processes,
        &tables.policy,
        &tables.rom,
        borrow.process,
        borrow.descriptor,
        borrow.count,
        &mut refusal,
    );
    match refusal {
        0 => Ok(bytes),
        _ => Err(refusal),
    }
}

/// What an action leaves beside the tables.
#[derive(Clone, Debug, PartialEq, Eq)]
pub struct Outcome {
    /// Of a borrowing read the refusal, and as its value the number of bytes.
    pub answer: Answer,
    /// The buffer, or the bytes handed back.
    pub bytes: Vec<u8>,
    /// Where bytes that are handed back lie, if there are any: in the factory part or not, and at which byte.
    pub lent: Option<(bool, usize)>,
}

/// A call or a borrowing read on the proved store.
pub fn store_action(tables: &mut Tables, action: &Action) -> Outcome {
    match action {
        Action::Call(call) => outcome(call, |buffer| store_call(tables, call, buffer)),
        Action::Borrow(borrow) => handed_back(tables, borrow, store_borrow),
    }
}

/// A call or a borrowing read on the second program.
pub fn reference_action(tables: &mut Tables, action: &Action) -> Outcome {
    match action {
        Action::Call(call) => outcome(call, |buffer| {
            store_form(reference_call(tables, call, buffer))
        }),
        Action::Borrow(borrow) => handed_back(tables, borrow, reference_borrow),
    }
}

pub fn outcome(call: &Call, make: impl FnOnce(&mut [u8]) -> Answer) -> Outcome {
    let mut buffer = call.buffer.clone();
    Outcome {
        answer: make(&mut buffer),
        bytes: buffer,
        lent: None,
    }
}

fn handed_back(
    tables: &mut Tables,
    borrow: &Borrow,
    program: for<'a> fn(&'a mut Tables, &Borrow) -> Borrowed<'a>,
) -> Outcome {
    let memories = [&tables.contents, &tables.rom].map(|memory| memory.as_ptr_range());
    let borrowed = program(tables, borrow);
    let bytes = borrowed.unwrap_or(&[]);
    let [contents, rom] = memories.map(|memory| {
        let at = (bytes.as_ptr() as usize).checked_sub(memory.start as usize);
        at.filter(|_| !bytes.is_empty() && bytes.as_ptr_range().end <= memory.end)
    });
    let lent = rom.map(|at| (true, at)).or(contents.map(|at| (false, at)));
    Outcome {
        answer: Answer {
            refusal: borrowed.err().unwrap_or(0),
            value: bytes.len() as u32,
            ..NOTHING
        },
        bytes: bytes.to_vec(),
        lent,
    }
}

/// An answer without anything.
const NOTHING: Answer = Answer {
    refusal: 0,
    stop: 0,
    value: 0,
    name_length: 0,
    name: [0; 16],
    fields: [0; 8],
};
