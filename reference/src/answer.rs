//! What a call answers.

use crate::records::FILE_WIDTH;
use crate::refusal::{Refusal, Refused};

/// The answer to one call; the reader's buffer stands beside it.
#[derive(Clone, Debug, PartialEq, Eq)]
pub struct Answer {
    /// 0 for granted, else why not.
    pub refusal: u32,
    /// The name, counted from 1, at which a walk was refused; else 0.
    pub stop: u32,
    pub value: u32,
    /// The listed name, without padding.
    pub name: Vec<u8>,
    /// Stat's kind, owner, group, bits, label, length, links and version.
    pub fields: Option<[u32; FILE_WIDTH]>,
}

impl Answer {
    pub(crate) fn value(value: u32) -> Answer {
        Answer {
            refusal: 0,
            stop: 0,
            value,
            name: Vec::new(),
            fields: None,
        }
    }

    pub(crate) fn done() -> Answer {
        Answer::value(0)
    }

    pub(crate) fn listed(name: &[u8]) -> Answer {
        Answer {
            name: name.to_vec(),
            ..Answer::value(1)
        }
    }

    pub(crate) fn stat(fields: [u32; FILE_WIDTH]) -> Answer {
        Answer {
            fields: Some(fields),
            ..Answer::done()
        }
    }
}

impl From<Refused> for Answer {
    fn from(refused: Refused) -> Answer {
        Answer {
            refusal: refused.refusal as u32,
            stop: refused.stop,
            ..Answer::done()
        }
    }
}

impl From<Refusal> for Answer {
    fn from(refusal: Refusal) -> Answer {
        Answer::from(Refused::from(refusal))
    }
}
