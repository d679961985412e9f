//! The calls, short to write.

use crate::console::{request, Console, FILE_WIDTH};
use reference::{Answer, Request};

/// The value, or the refusal and the name at which a walk stopped.
pub type Outcome = Result<u32, (u32, u32)>;

/// A refusal that is not a walk's.
pub fn no(refusal: u32) -> Outcome {
    Err((refusal, 0))
}

/// A refusal in a walk.
pub fn stopped(refusal: u32, name: u32) -> Outcome {
    Err((refusal, name))
}

pub fn outcome(answer: &Answer) -> Outcome {
    match answer.refusal {
        0 => Ok(answer.value),
        refusal => Err((refusal, answer.stop)),
    }
}

impl Console {
    fn on_path(&mut self, process: u8, call: u8, number: u16, path: &str) -> Outcome {
        let request = Request {
            number,
            ..request(process, call)
        };
        outcome(&self.call(request, path.as_bytes(), b"", &mut []))
    }

    fn on_descriptor(&mut self, process: u8, call: u8, descriptor: u8) -> Outcome {
        let request = Request {
            descriptor,
            ..request(process, call)
        };
        outcome(&self.call(request, b"", b"", &mut []))
    }

    pub fn open(&mut self, process: u8, path: &str, mode: u16) -> Outcome {
        self.on_path(process, 1, mode, path)
    }

    pub fn create(&mut self, process: u8, path: &str, bits: u16) -> Outcome {
        self.on_path(process, 2, bits, path)
    }

    pub fn make_directory(&mut self, process: u8, path: &str, bits: u16) -> Outcome {
        self.on_path(process, 3, bits, path)
    }

    pub fn unlink(&mut self, process: u8, path: &str) -> Outcome {
        self.on_path(process, 4, 0, path)
    }

    pub fn remove_directory(&mut self, process: u8, path: &str) -> Outcome {
        self.on_path(process, 5, 0, path)
    }

    pub fn link(&mut self, process: u8, old: &str, new: &str) -> Outcome {
        let request = request(process, 6);
        outcome(&self.call(request, old.as_bytes(), new.as_bytes(), &mut []))
    }

    /// The listed name in place of the value 1.
    pub fn list(&mut self, process: u8, path: &str, k: u16) -> Result<Option<Vec<u8>>, (u32, u32)> {
        let request = Request {
            number: k,
            ..request(process, 7)
        };
        let answer = self.call(request, path.as_bytes(), b"", &mut []);
        outcome(&answer).map(|value| {
            assert_eq!(value, u32::from(!answer.name.is_empty()));
            (value == 1).then_some(answer.name)
        })
    }

    pub fn change_bits(&mut self, process: u8, path: &str, bits: u16) -> Outcome {
        self.on_path(process, 8, bits, path)
    }

    pub fn stat(&mut self, process: u8, path: &str) -> Result<[u32; FILE_WIDTH], (u32, u32)> {
        let answer = self.call(request(process, 9), path.as_bytes(), b"", &mut []);
        outcome(&answer).map(|value| {
            assert_eq!(value, 0);
            answer.fields.expect("a granted stat has fields")
        })
    }

    pub fn close(&mut self, process: u8, descriptor: u8) -> Outcome {
        self.on_descriptor(process, 10, descriptor)
    }

    /// The bytes read, as many as the value says.
    pub fn read(
        &mut self,
        process: u8,
        descriptor: u8,
        size: usize,
    ) -> Result<Vec<u8>, (u32, u32)> {
        let request = Request {
            descriptor,
            ..request(process, 11)
        };
        let mut buffer = vec![170; size];
        let answer = self.call(request, b"", b"", &mut buffer);
        outcome(&answer).map(|value| {
            buffer.truncate(value as usize);
            buffer
        })
    }

    pub fn write(&mut self, process: u8, descriptor: u8, data: &[u8]) -> Outcome {
        let request = Request {
            descriptor,
            ..request(process, 12)
        };
        outcome(&self.call(request, b"", data, &mut []))
    }

    pub fn seek(&mut self, process: u8, descriptor: u8, position: u16) -> Outcome {
        let request = Request {
            descriptor,
            number: position,
            ..request(process, 13)
        };
        outcome(&self.call(request, b"", b"", &mut []))
    }

    pub fn duplicate(&mut self, process: u8, descriptor: u8) -> Outcome {
        self.on_descriptor(process, 14, descriptor)
    }

    pub fn fork(&mut self, process: u8) -> Outcome {
        self.on_descriptor(process, 15, 0)
    }

    pub fn exit(&mut self, process: u8) -> Outcome {
        self.on_descriptor(process, 16, 0)
    }

    pub fn execute(&mut self, process: u8, path: &str) -> Outcome {
        self.on_path(process, 17, 0, path)
    }

    pub fn symlink(&mut self, process: u8, path: &str, text: &str) -> Outcome {
        let request = request(process, 18);
        outcome(&self.call(request, path.as_bytes(), text.as_bytes(), &mut []))
    }

    pub fn rename(&mut self, process: u8, old: &str, new: &str) -> Outcome {
        let request = request(process, 20);
        outcome(&self.call(request, old.as_bytes(), new.as_bytes(), &mut []))
    }

    /// As much of the text as a buffer of this size gets.
    pub fn read_symlink(
        &mut self,
        process: u8,
        path: &str,
        size: usize,
    ) -> Result<Vec<u8>, (u32, u32)> {
        let mut buffer = vec![170; size];
        let answer = self.call(request(process, 19), path.as_bytes(), b"", &mut buffer);
        outcome(&answer).map(|value| {
            buffer.truncate(value as usize);
            buffer
        })
    }
}
