//! Calls written down: process, call and descriptor, one byte each, the number
//! in two, the path's length and the path, then the data.

use crate::command::Request;
use crate::directory::BLOCK;
use crate::parts::Parts;
use crate::path::PATH;

const LINK: u8 = 6;
const MAKE_SYMLINK: u8 = 18;
const RENAME: u8 = 20;

/// A call read from its written form. The number of a read is the size of the
/// buffer to read into.
#[derive(Clone, Copy, Debug, PartialEq, Eq)]
pub struct Written<'a> {
    pub request: Request,
    pub path: &'a [u8],
    pub data: &'a [u8],
}

impl Written<'_> {
    fn fits(&self) -> bool {
        self.path.len() <= PATH && self.data.len() <= longest_data(self.request.call)
    }

    /// The call with 0 and nothing in the parts that it does not use.
    fn without_unused(self) -> Self {
        let used = Parts::of(self.request.call.into());
        let Request {
            descriptor, number, ..
        } = self.request;
        Written {
            request: Request {
                descriptor: if used.descriptor { descriptor } else { 0 },
                number: if used.number { number } else { 0 },
                ..self.request
            },
            path: if used.path { self.path } else { &[] },
            data: if used.data { self.data } else { &[] },
        }
    }
}

/// A second path and a link's text are as long as paths at most.
fn longest_data(call: u8) -> usize {
    match call {
        LINK | MAKE_SYMLINK | RENAME => PATH,
        _ => BLOCK,
    }
}

/// The call written down, unless it is too long to be kept. Parts that it does
/// not use are left out.
pub fn encode(request: Request, path: &[u8], data: &[u8]) -> Option<Vec<u8>> {
    let call = Written {
        request,
        path,
        data,
    }
    .without_unused();
    let Written {
        request,
        path,
        data,
    } = call;
    let [low, high] = request.number.to_le_bytes();
    let numbers = [request.process, request.call, request.descriptor, low, high];
    call.fits()
        .then(|| [&numbers, &[path.len() as u8][..], path, data].concat())
}

/// The call written in these bytes, if [`encode`] writes just them for it.
pub fn decode(bytes: &[u8]) -> Option<Written<'_>> {
    let &[process, call, descriptor, low, high, length, ref texts @ ..] = bytes else {
        return None;
    };
    let (path, data) = texts.split_at_checked(length.into())?;
    let request = Request {
        process,
        call,
        descriptor,
        number: u16::from_le_bytes([low, high]),
    };
    let written = Written {
        request,
        path,
        data,
    };
    (written.fits() && written == written.without_unused()).then_some(written)
}
