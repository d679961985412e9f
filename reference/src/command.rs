//! A call as it comes in, and as it is understood.

use crate::bits::Bits;
use crate::path::{Path, Target};
use crate::records::Kind;
use crate::rights::Opening;

pub const LAST_OFFSET: u32 = 512;

/// The numbers of a call; its path and data come beside it.
#[derive(Clone, Copy, Debug, PartialEq, Eq)]
pub struct Request {
    pub process: u8,
    pub call: u8,
    pub descriptor: u8,
    /// Mode, bits, index or position. Of a read: in a written form the size of
    /// the buffer, which a direct call takes from the buffer itself.
    pub number: u16,
}

/// A well-formed call. A descriptor is kept as given: one that is too high is
/// not malformed but not held.
pub enum Command<'a> {
    Open {
        path: Path<'a>,
        opening: Opening,
    },
    Make {
        kind: Kind,
        target: Target<'a>,
        bits: Bits,
    },
    Unlink {
        target: Target<'a>,
    },
    RemoveDirectory {
        target: Target<'a>,
    },
    Link {
        old: Path<'a>,
        new: Target<'a>,
    },
    List {
        path: Path<'a>,
        index: usize,
    },
    ChangeBits {
        path: Path<'a>,
        bits: Bits,
    },
    Stat {
        path: Path<'a>,
    },
    Close {
        descriptor: u8,
    },
    Read {
        descriptor: u8,
    },
    Write {
        descriptor: u8,
        data: &'a [u8],
    },
    Seek {
        descriptor: u8,
        position: u32,
    },
    Duplicate {
        descriptor: u8,
    },
    Fork,
    Exit,
    Execute {
        path: Path<'a>,
    },
    MakeSymlink {
        target: Target<'a>,
        text: &'a [u8],
    },
    ReadSymlink {
        path: Path<'a>,
    },
    Rename {
        old: Target<'a>,
        new: Target<'a>,
    },
}

impl<'a> Command<'a> {
    /// The call asked for, unless it is malformed. Parts that the call does
    /// not use are not looked at.
    pub fn parse(request: Request, path: &'a [u8], data: &'a [u8]) -> Option<Command<'a>> {
        match request.call {
            2..=6 | 18 | 20 => Command::parse_on_name(request, path, data),
            1 | 7..=9 | 17 | 19 => Command::parse_on_path(request, path),
            10..=14 => Command::parse_on_descriptor(request, data),
            15 => Some(Command::Fork),
            16 => Some(Command::Exit),
            _ => None,
        }
    }

    /// The calls that give and take names.
    fn parse_on_name(request: Request, path: &'a [u8], data: &'a [u8]) -> Option<Command<'a>> {
        let number = u32::from(request.number);
        Some(match request.call {
            2 => Command::parse_make(Kind::PLAIN, path, number)?,
            3 => Command::parse_make(Kind::DIRECTORY, path, number)?,
            4 => Command::Unlink {
                target: Target::parse(path)?,
            },
            5 => Command::RemoveDirectory {
                target: Target::parse(path)?,
            },
            6 => Command::Link {
                old: Path::parse(path)?,
                new: Target::parse(data)?,
            },
            18 => Command::MakeSymlink {
                target: Target::parse(path)?,
                text: Path::parse(data).map(|_| data)?,
            },
            20 => Command::Rename {
                old: Target::parse(path)?,
                new: Target::parse(data)?,
            },
            _ => return None,
        })
    }

    fn parse_make(kind: Kind, path: &'a [u8], bits: u32) -> Option<Command<'a>> {
        Some(Command::Make {
            kind,
            target: Target::parse(path)?,
            bits: Bits::new(bits)?,
        })
    }

    fn parse_on_path(request: Request, path: &'a [u8]) -> Option<Command<'a>> {
        let path = Path::parse(path)?;
        let number = u32::from(request.number);
        Some(match request.call {
            1 => Command::Open {
                path,
                opening: Opening::new(number)?,
            },
            7 => Command::List {
                path,
                index: usize::from(request.number),
            },
            8 => Command::ChangeBits {
                path,
                bits: Bits::new(number)?,
            },
            9 => Command::Stat { path },
            17 => Command::Execute { path },
            19 => Command::ReadSymlink { path },
            _ => return None,
        })
    }

    fn parse_on_descriptor(request: Request, data: &'a [u8]) -> Option<Command<'a>> {
        let descriptor = request.descriptor;
        Some(match request.call {
            10 => Command::Close { descriptor },
            11 => Command::Read { descriptor },
            12 => Command::Write { descriptor, data },
            13 => Command::Seek {
                descriptor,
                position: Some(u32::from(request.number))
                    .filter(|&position| position <= LAST_OFFSET)?,
            },
            14 => Command::Duplicate { descriptor },
            _ => return None,
        })
    }
}
