//! What is asked of a store: a call, or a borrowing read.

use crate::call::{Call, BORROW};
use std::fmt;

#[derive(Clone, Copy, Debug)]
pub struct Borrow {
    pub process: u8,
    pub descriptor: u8,
    pub count: u32,
}

#[derive(Clone, Debug)]
pub enum Action {
    Call(Call),
    Borrow(Borrow),
}

impl Action {
    /// Its row in a table of counts.
    pub fn row(&self) -> usize {
        match self {
            Action::Call(call) => call.row(),
            Action::Borrow(_) => BORROW,
        }
    }

    pub fn changes_names(&self) -> bool {
        matches!(self, Action::Call(call) if call.changes_names())
    }

    /// What a refused one leaves beside the tables: the buffer as it was, or no bytes.
    pub fn untouched(&self) -> &[u8] {
        match self {
            Action::Call(call) => &call.buffer,
            Action::Borrow(_) => &[],
        }
    }
}

impl fmt::Display for Action {
    fn fmt(&self, out: &mut fmt::Formatter) -> fmt::Result {
        match self {
            Action::Call(call) => write!(out, "{call}"),
            Action::Borrow(borrow) => write!(
                out,
                "borrowing read by process {}, descriptor {}, count {}",
                borrow.process, borrow.descriptor, borrow.count
            ),
        }
    }
}
