//! The C functions, and a safe one over each.

use crate::{memories, refusals, Answer, Replayed, Request, Tables};

/// Declares functions that make one call: they take the same and answer the same.
macro_rules! call_functions {
    ($($name:ident)*) => {
        unsafe extern "C" {
            $(fn $name(
                files: *mut u32,
                files_size: usize,
                contents: *mut u8,
                contents_size: usize,
                open_files: *mut u32,
                open_files_size: usize,
                processes: *mut u32,
                processes_size: usize,
                policy: *const u8,
                policy_size: usize,
                rom: *const u8,
                rom_size: usize,
                process: u8,
                call: u8,
                descriptor: u8,
                number: u16,
                path: *const u8,
                path_size: usize,
                data: *const u8,
                data_size: usize,
                buffer: *mut u8,
                buffer_size: usize,
            ) -> Answer;)*
        }
    };
}

call_functions!(mritvelja_call mritvelja_act);

unsafe extern "C" {
    fn mritvelja_sound(
        files: *const u32,
        files_size: usize,
        contents: *const u8,
        contents_size: usize,
        open_files: *const u32,
        open_files_size: usize,
        processes: *const u32,
        processes_size: usize,
        policy: *const u8,
        policy_size: usize,
        rom: *const u8,
        rom_size: usize,
    ) -> u32;

    fn mritvelja_borrow_read(
        files: *const u32,
        files_size: usize,
        contents: *const u8,
        contents_size: usize,
        open_files: *mut u32,
        open_files_size: usize,
        processes: *const u32,
        processes_size: usize,
        policy: *const u8,
        policy_size: usize,
        rom: *const u8,
        rom_size: usize,
        process: u8,
        descriptor: u8,
        count: u32,
    ) -> Borrowed;

    fn mritvelja_replay(
        files: *mut u32,
        files_size: usize,
        contents: *mut u8,
        contents_size: usize,
        open_files: *mut u32,
        open_files_size: usize,
        processes: *mut u32,
        processes_size: usize,
        policy: *const u8,
        policy_size: usize,
        rom: *const u8,
        rom_size: usize,
        script: *const u8,
        script_size: usize,
        allowance: u32,
        output: *mut u8,
        output_size: usize,
    ) -> Replayed;
}

/// Where the bytes of a borrowing read lie.
#[repr(C)]
struct Borrowed {
    refusal: u32,
    value: u32,
    memory: u32,
    at: u32,
}

impl Borrowed {
    fn part<'a>(&self, contents: &'a [u8], rom: &'a [u8]) -> Result<&'a [u8], u32> {
        if self.refusal != refusals::GRANTED {
            return Err(self.refusal);
        }
        let memory = match self.memory {
            memories::ROM => rom,
            _ => contents,
        };
        Ok(match self.value as usize {
            // An offset may lie past a file's end, and past all that is lent.
            0 => &memory[..0],
            count => &memory[self.at as usize..][..count],
        })
    }
}

// Every crossing is safe: the functions take slices of any length, each as its
// pointer, which is never null and is aligned, and its own number of elements.
// They keep none of them, and write only to those that are `*mut`. Each of these
// comes from a borrow that is exclusive for the whole call, so that it overlaps no
// other; two that are only read may share bytes (a path and the data), since
// nothing changes under either.

/// Lends the tables, by `as_ptr` or `as_mut_ptr`, and what else the function takes.
macro_rules! lend {
    ($function:ident, $tables:ident.$pointer:ident $(, $more:expr)*) => {
        $function(
            $tables.files.$pointer(),
            $tables.files.len(),
            $tables.contents.$pointer(),
            $tables.contents.len(),
            $tables.open_files.$pointer(),
            $tables.open_files.len(),
            $tables.processes.$pointer(),
            $tables.processes.len(),
            $tables.policy.as_ptr(),
            $tables.policy.len(),
            $tables.rom.as_ptr(),
            $tables.rom.len()
            $(, $more)*
        )
    };
}

/// Lends the tables, a request and a buffer.
macro_rules! ask {
    ($function:ident, $tables:ident, $request:ident, $buffer:ident) => {
        lend!(
            $function,
            $tables.as_mut_ptr,
            $request.process,
            $request.call,
            $request.descriptor,
            $request.number,
            $request.path.as_ptr(),
            $request.path.len(),
            $request.data.as_ptr(),
            $request.data.len(),
            $buffer.as_mut_ptr(),
            $buffer.len()
        )
    };
}

/// Makes one call. Tables, a policy or a factory part that are not sound, or not of
/// the store's sizes, are refused, at each call. A read or a readlink puts its bytes
/// into the buffer.
#[inline]
pub fn call(tables: &mut Tables, request: &Request, buffer: &mut [u8]) -> Answer {
    // SAFETY: as said above of every crossing.
    unsafe { ask!(mritvelja_call, tables, request, buffer) }
}

/// As [`call`], without the test: for tables known to be sound, as those are that
/// were found sound and since then changed by these functions alone, with the same
/// policy and factory part. It is safe on other tables too, but what it answers and
/// leaves is then of no use.
#[inline]
pub fn act(tables: &mut Tables, request: &Request, buffer: &mut [u8]) -> Answer {
    // SAFETY: as said above of every crossing.
    unsafe { ask!(mritvelja_act, tables, request, buffer) }
}

/// Whether the tables, the policy and the factory part are sound.
#[inline]
pub fn sound(tables: &Tables) -> bool {
    // SAFETY: as said above of every crossing; nothing is written.
    let answer = unsafe { lend!(mritvelja_sound, tables.as_ptr) };
    answer == 1
}

/// Runs a script, at most `allowance` calls of it, each as by [`call`], but that a
/// read or a readlink of more than 512 bytes is malformed; soundness is tested once
/// for all of them. The answers go to the output, three lines each, and its bytes
/// past them stay. A run with the script from [`next`](Replayed::next) on goes on
/// where this one stopped.
#[inline]
pub fn replay(tables: &mut Tables, script: &[u8], allowance: u32, output: &mut [u8]) -> Replayed {
    // SAFETY: as said above of every crossing.
    unsafe {
        lend!(
            mritvelja_replay,
            tables.as_mut_ptr,
            script.as_ptr(),
            script.len(),
            allowance,
            output.as_mut_ptr(),
            output.len()
        )
    }
}

/// A read that copies nothing: at most `count` bytes of what the descriptor and its
/// offset give, as they lie in the contents or in the factory part, or the number of a
/// refusal. Checks and offset are as in a read; a count over 512 is malformed. It takes
/// the tables one by one, since what it gives is borrowed from two of them alone: a part
/// can be held across further reads, and until something is written to the contents.
#[allow(clippy::too_many_arguments)] // the lent tables come one by one
#[inline]
pub fn borrow_read<'a>(
    files: &[u32],
    contents: &'a [u8],
    open_files: &mut [u32],
    processes: &[u32],
    policy: &[u8],
    rom: &'a [u8],
    process: u8,
    descriptor: u8,
    count: u32,
) -> Result<&'a [u8], u32> {
    // SAFETY: as said above of every crossing.
    let borrowed = unsafe {
        mritvelja_borrow_read(
            files.as_ptr(),
            files.len(),
            contents.as_ptr(),
            contents.len(),
            open_files.as_mut_ptr(),
            open_files.len(),
            processes.as_ptr(),
            processes.len(),
            policy.as_ptr(),
            policy.len(),
            rom.as_ptr(),
            rom.len(),
            process,
            descriptor,
            count,
        )
    };
    borrowed.part(contents, rom)
}
