//! Tables as the programs of the gate start with them, and a call on them by the second program.

pub use mritvelja::layout::{BLOCK, FILE_WIDTH, LABELS, OPEN_FILE_WIDTH, PROCESS_WIDTH};
use mritvelja::layout::{
    CONTENTS_SIZE, FILES_SIZE, NO_TRANSITION, OPEN_FILES_SIZE, POLICY_SIZE, PROCESSES_SIZE,
    RIGHTS_SIZE,
};
pub use mritvelja::Tables;
use reference::{Answer, Request};

/// The right sizes of files, contents, open files, processes and policy.
pub const SIZES: [usize; 5] = [
    FILES_SIZE,
    CONTENTS_SIZE,
    OPEN_FILES_SIZE,
    PROCESSES_SIZE,
    POLICY_SIZE,
];

/// Tables of 0 alone, in which the policy gives no right, and no prompts.
pub fn zero([files, contents, open_files, processes, policy]: [usize; 5]) -> Tables {
    Tables {
        files: vec![0; files],
        contents: vec![0; contents],
        open_files: vec![0; open_files],
        processes: vec![0; processes],
        policy: vec![0; policy],
        rom: Vec::new(),
    }
}

/// Tables of the right sizes, with no root and no transitions.
pub fn blank() -> Tables {
    let mut tables = zero(SIZES);
    tables.policy[RIGHTS_SIZE..].fill(NO_TRANSITION);
    tables
}

/// A call on the tables, by the second program.
pub fn call(
    tables: &mut Tables,
    request: Request,
    path: &[u8],
    data: &[u8],
    buffer: &mut [u8],
) -> Answer {
    reference::call(
        &mut tables.files,
        &mut tables.contents,
        &mut tables.open_files,
        &mut tables.processes,
        &tables.policy,
        &tables.rom,
        request,
        path,
        data,
        buffer,
    )
}

/// A borrowing read on the tables, by the second program: its answer, and the bytes.
pub fn borrow(tables: &mut Tables, process: u8, descriptor: u8, count: u32) -> (Answer, Vec<u8>) {
    let mut refusal = 0;
    let bytes = reference::borrow_read(
        &tables.files,
        &tables.contents,
        &mut tables.open_files,
        &tables.processes,
        &tables.policy,
        &tables.rom,
        process,
        descriptor,
        count,
        &mut refusal,
    );
    (borrowed(refusal, bytes), bytes.to_vec())
}

/// What a borrowing read is answered, written as a read's answer.
pub fn borrowed(refusal: u32, bytes: &[u8]) -> Answer {
    Answer {
        refusal,
        stop: 0,
        value: bytes.len() as u32,
        name: Vec::new(),
        fields: None,
    }
}
