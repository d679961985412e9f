//! The calls that make and end processes: fork and exit.

use crate::access::Caller;
use crate::answer::Answer;
use crate::refusal::{Refusal, Refused};
use crate::tables::Store;

impl Store<'_> {
    /// Call 15: the child holds the same open files, and so shares offsets.
    pub fn fork(&mut self, caller: Caller) -> Result<Answer, Refused> {
        let child = self.lowest_free_process().ok_or(Refusal::TableFull)?;
        self.copy_process(caller.process, child);
        for open_file in self.process(child).open_files() {
            self.add_reference(open_file);
        }
        Ok(Answer::value(child.index() as u32))
    }

    /// Call 16.
    pub fn exit(&mut self, caller: Caller) -> Result<Answer, Refused> {
        let leaving = self.process(caller.process);
        self.clear_process(caller.process);
        for open_file in leaving.open_files() {
            self.drop_reference(open_file);
        }
        Ok(Answer::done())
    }
}
