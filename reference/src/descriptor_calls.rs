//! The calls on a descriptor: close, read, write, seek and duplicate.

use crate::access::Caller;
use crate::answer::Answer;
use crate::directory::BLOCK;
use crate::refusal::{Refusal, Refused};
use crate::rights::{OpenMode, Rights};
use crate::tables::Store;

impl Store<'_> {
    /// Call 10.
    pub fn close(&mut self, caller: Caller, descriptor: u8) -> Result<Answer, Refused> {
        let (descriptor, number) = self.tables().held(caller, descriptor)?;
        self.set_descriptor(caller.process, descriptor, None);
        self.drop_reference(number);
        Ok(Answer::done())
    }

    /// Call 11: as much as the buffer holds and the file has.
    pub fn read(
        &mut self,
        caller: Caller,
        descriptor: u8,
        buffer: &mut [u8],
    ) -> Result<Answer, Refused> {
        let ahead = self.tables().ahead(caller, descriptor)?;
        let count = fill(buffer, ahead.bytes);
        let (number, open_file) = (ahead.number, ahead.after(count));
        self.set_open_file(number, open_file);
        Ok(Answer::value(count as u32))
    }

    /// Call 12: all of the data or none.
    pub fn write(
        &mut self,
        caller: Caller,
        descriptor: u8,
        data: &[u8],
    ) -> Result<Answer, Refused> {
        let (_, number) = self.tables().held(caller, descriptor)?;
        let mut open_file = self.open_file(number);
        if !open_file.mode.writes() {
            return Err(Refusal::WrongDirection.into());
        }
        // Before a write of no data is granted: it asks the label too.
        self.tables()
            .check_still_allowed(caller, &open_file, Rights::WRITE)?;
        if data.is_empty() {
            return Ok(Answer::done());
        }
        let start = match open_file.mode {
            OpenMode::APPEND => self.file(open_file.slot).length,
            _ => open_file.offset,
        } as usize;
        // A gap before the start is 0 already: a file's bytes past its length are.
        let end = Some(start + data.len())
            .filter(|&end| end <= BLOCK)
            .ok_or(Refusal::TooLong)?;
        self.block_mut(open_file.slot)[start..end].copy_from_slice(data);
        self.change_file(open_file.slot, |file| {
            file.length = file.length.max(end as u32);
            file.raise_version();
        });
        open_file.offset = end as u32;
        self.set_open_file(number, open_file);
        Ok(Answer::value(data.len() as u32))
    }

    /// Call 13.
    pub fn seek(
        &mut self,
        caller: Caller,
        descriptor: u8,
        position: u32,
    ) -> Result<Answer, Refused> {
        let (_, number) = self.tables().held(caller, descriptor)?;
        let mut open_file = self.open_file(number);
        open_file.offset = position;
        self.set_open_file(number, open_file);
        Ok(Answer::value(position))
    }

    /// Call 14.
    pub fn duplicate(&mut self, caller: Caller, descriptor: u8) -> Result<Answer, Refused> {
        let (_, number) = self.tables().held(caller, descriptor)?;
        let copy = self
            .lowest_free_descriptor(caller.process)
            .ok_or(Refusal::TableFull)?;
        self.set_descriptor(caller.process, copy, Some(number));
        self.add_reference(number);
        Ok(Answer::value(copy.index() as u32))
    }
}

/// Puts into the buffer as many of the bytes as it holds; how many these are.
pub fn fill(buffer: &mut [u8], bytes: &[u8]) -> usize {
    let count = bytes.len().min(buffer.len());
    buffer[..count].copy_from_slice(&bytes[..count]);
    count
}
