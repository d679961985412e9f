//! The borrowing read: the bytes are handed back where they lie, in the
//! contents or in ROM.

use crate::access::Caller;
use crate::directory::BLOCK;
use crate::numbers::OpenFileNumber;
use crate::records::{OpenFile, OPEN_FILE_WIDTH};
use crate::refusal::Refusal;
use crate::rights::Rights;
use crate::sound::is_sound;
use crate::tables::Tables;

/// The most bytes that a borrowing read may ask for.
const LARGEST_BORROW: u32 = BLOCK as u32;

/// What a read on a descriptor has before it.
pub struct Ahead<'bytes> {
    pub number: OpenFileNumber,
    pub open_file: OpenFile,
    /// The file's bytes from the offset on.
    pub bytes: &'bytes [u8],
}

impl<'bytes> Ahead<'bytes> {
    /// These bytes, and no more of them than wanted.
    fn up_to(&self, count: usize) -> &'bytes [u8] {
        &self.bytes[..self.bytes.len().min(count)]
    }

    /// The open file once so many of the bytes are taken.
    pub fn after(&self, taken: usize) -> OpenFile {
        OpenFile {
            offset: self.open_file.offset + taken as u32,
            ..self.open_file
        }
    }
}

impl<'bytes> Tables<'_, 'bytes> {
    /// What a read on this descriptor may take from, unless it is refused.
    #[inline(always)] // or a read into a buffer takes a quarter longer
    pub fn ahead(&self, caller: Caller, descriptor: u8) -> Result<Ahead<'bytes>, Refusal> {
        let (_, number) = self.held(caller, descriptor)?;
        let open_file = self.open_file(number);
        if !open_file.mode.reads() {
            return Err(Refusal::WrongDirection);
        }
        self.check_still_allowed(caller, &open_file, Rights::READ)?;
        let bytes = self.bytes(open_file.slot);
        Ok(Ahead {
            number,
            open_file,
            bytes: bytes.get(open_file.offset as usize..).unwrap_or(&[]),
        })
    }

    /// What a borrowing read may take from, unless it is refused.
    fn lendable(&self, process: u8, descriptor: u8, count: u32) -> Result<Ahead<'bytes>, Refusal> {
        if !is_sound(self) {
            return Err(Refusal::Unsound);
        }
        let caller = self.caller(process).ok_or(Refusal::NoProcess)?;
        if count > LARGEST_BORROW {
            return Err(Refusal::Malformed);
        }
        self.ahead(caller, descriptor)
    }
}

/// As a read into a buffer of `count` bytes, at most 512, with the bytes handed
/// back as a part of the contents or of ROM instead.
///
/// The refusal's number is written, 0 if it is granted. Then the offset of the
/// open file moves by as many bytes as are handed back. If it is refused there
/// are none, and nothing else is written.
#[allow(clippy::too_many_arguments)] // the lent tables come one by one
pub fn borrow_read<'a>(
    files: &[u32],
    contents: &'a [u8],
    open_files: &mut [u32],
    processes: &[u32],
    policy: &[u8],
    rom: &'a [u8],
    process: u8,
    descriptor: u8,
    count: u32,
    refusal: &mut u32,
) -> &'a [u8] {
    let lendable = Tables::lend(files, contents, open_files, processes, policy, rom)
        .ok_or(Refusal::Unsound)
        .and_then(|tables| tables.lendable(process, descriptor, count));
    match lendable {
        Ok(ahead) => {
            let bytes = ahead.up_to(count as usize);
            let words = open_files.as_chunks_mut::<OPEN_FILE_WIDTH>().0;
            words[ahead.number.index()] = ahead.after(bytes.len()).words();
            *refusal = 0;
            bytes
        }
        Err(refused) => {
            *refusal = refused as u32;
            &[]
        }
    }
}
