//! The test console, and calls on it that are checked as they are made.

use reference::{act, call, sound, Answer, Request};

pub const SLOTS: usize = 128;
pub const LAST_SLOT: usize = SLOTS - 1;

pub const FILE_WIDTH: usize = 8;
pub const PROCESS_WIDTH: usize = 12;

/// The columns of a file's record.
pub const FILE_KIND: usize = 0;
pub const FILE_OWNER: usize = 1;
pub const FILE_GROUP: usize = 2;
pub const FILE_BITS: usize = 3;
pub const FILE_LABEL: usize = 4;
pub const FILE_LENGTH: usize = 5;
pub const FILE_LINKS: usize = 6;
pub const FILE_VERSION: usize = 7;

/// The columns of a process, the last one that of its first descriptor.
pub const PROCESS_USED: usize = 0;
pub const PROCESS_USER: usize = 1;
pub const PROCESS_GROUP: usize = 2;
pub const PROCESS_LABEL: usize = 3;
pub const PROCESS_DESCRIPTOR: usize = 4;

pub const FREE: u32 = 0;
pub const PLAIN: u32 = 1;
pub const DIRECTORY: u32 = 2;
pub const SYMLINK: u32 = 3;

/// Tables that can be lent.
#[derive(Clone, Debug, PartialEq, Eq)]
pub struct Console {
    pub files: Vec<u32>,
    pub contents: Vec<u8>,
    pub open_files: Vec<u32>,
    pub processes: Vec<u32>,
    pub policy: Vec<u8>,
    pub rom: Vec<u8>,
}

/// The numbers of a call, all 0 unless set.
pub fn request(process: u8, call: u8) -> Request {
    Request {
        process,
        call,
        descriptor: 0,
        number: 0,
    }
}

impl Console {
    /// A sound store with nothing but an empty root, and no rights.
    pub fn empty() -> Console {
        let mut policy = vec![0; 256];
        policy.extend([255; 256]);
        let mut console = Console {
            files: vec![0; SLOTS * FILE_WIDTH],
            contents: vec![0; SLOTS * 512],
            open_files: vec![0; 32 * 4],
            processes: vec![0; 8 * PROCESS_WIDTH],
            policy,
            rom: vec![],
        };
        console.set_file(0, [DIRECTORY, 0, 1, 0o755, 0, 0, 0, 0]);
        console
    }

    /// The console of the paper.
    pub fn new() -> Console {
        let mut console = Console::empty();
        console.set_file(0, [DIRECTORY, 0, 1, 0o755, 0, 2, 0, 0]);
        console.set_file(1, [DIRECTORY, 10, 1, 0o755, 0, 1, 1, 0]);
        console.set_file(2, [PLAIN, 10, 1, 0o744, 0, 5, 1, 0]);
        console.set_file(3, [PLAIN, 10, 1, 0o700, 3, 4, 1, 0]);
        console.set_dirent(0, 0, b"fares", 1);
        console.set_dirent(0, 1, b"key", 3);
        console.set_dirent(1, 0, b"now", 2);
        console.set_bytes(2, b"2.40\n");
        console.set_bytes(3, b"\x01\x02\x03\x04");
        for (process, user) in [0, 10, 20].into_iter().enumerate() {
            console.set_process(process, user, 1, process as u32);
        }
        for (label, over_0, over_3) in [(0, 7, 0), (1, 7, 2), (2, 5, 0)] {
            console.policy[16 * label] = over_0;
            console.policy[16 * label + 3] = over_3;
        }
        console
    }

    /// A console in which every label has every right over every file.
    pub fn open_policy() -> Console {
        let mut console = Console::new();
        console.policy[..256].fill(7);
        console
    }

    pub fn set_file(&mut self, slot: usize, record: [u32; FILE_WIDTH]) {
        self.files[FILE_WIDTH * slot..][..FILE_WIDTH].copy_from_slice(&record);
    }

    pub fn file(&self, slot: usize) -> [u32; FILE_WIDTH] {
        self.files[FILE_WIDTH * slot..][..FILE_WIDTH]
            .try_into()
            .unwrap()
    }

    pub fn kind(&self, slot: usize) -> u32 {
        self.file(slot)[FILE_KIND]
    }

    pub fn length(&self, slot: usize) -> usize {
        self.file(slot)[FILE_LENGTH] as usize
    }

    pub fn links(&self, slot: usize) -> u32 {
        self.file(slot)[FILE_LINKS]
    }

    pub fn version(&self, slot: usize) -> u32 {
        self.file(slot)[FILE_VERSION]
    }

    pub fn set_field(&mut self, slot: usize, column: usize, value: u32) {
        self.files[FILE_WIDTH * slot + column] = value;
    }

    pub fn set_bits(&mut self, slot: usize, bits: u32) {
        self.set_field(slot, FILE_BITS, bits);
    }

    pub fn set_label(&mut self, slot: usize, label: u32) {
        self.set_field(slot, FILE_LABEL, label);
    }

    pub fn set_version(&mut self, slot: usize, version: u32) {
        self.set_field(slot, FILE_VERSION, version);
    }

    pub fn set_dirent(&mut self, slot: usize, dirent: usize, name: &[u8], named: u8) {
        let bytes = &mut self.contents[512 * slot + 16 * dirent..][..16];
        bytes.fill(0);
        bytes[..name.len()].copy_from_slice(name);
        bytes[14] = named;
    }

    pub fn set_bytes(&mut self, slot: usize, bytes: &[u8]) {
        self.contents[512 * slot..][..bytes.len()].copy_from_slice(bytes);
    }

    pub fn block(&self, slot: usize) -> &[u8] {
        &self.contents[512 * slot..][..512]
    }

    pub fn bytes(&self, slot: usize) -> &[u8] {
        &self.block(slot)[..self.length(slot)]
    }

    pub fn open_file(&self, number: usize) -> [u32; 4] {
        self.open_files[4 * number..][..4].try_into().unwrap()
    }

    fn set_process(&mut self, process: usize, user: u32, group: u32, label: u32) {
        self.processes[PROCESS_WIDTH * process..][..PROCESS_DESCRIPTOR]
            .copy_from_slice(&[1, user, group, label]);
    }

    pub fn set_process_field(&mut self, process: usize, column: usize, value: u32) {
        self.processes[PROCESS_WIDTH * process + column] = value;
    }

    pub fn set_group(&mut self, process: usize, group: u32) {
        self.set_process_field(process, PROCESS_GROUP, group);
    }

    pub fn process(&self, process: usize) -> [u32; PROCESS_WIDTH] {
        self.processes[PROCESS_WIDTH * process..][..PROCESS_WIDTH]
            .try_into()
            .unwrap()
    }

    pub fn is_sound(&self) -> bool {
        sound(
            &self.files,
            &self.contents,
            &self.open_files,
            &self.processes,
            &self.policy,
            &self.rom,
        )
    }

    /// The call as it is, with nothing checked.
    pub fn raw(&mut self, request: Request, path: &[u8], data: &[u8], buffer: &mut [u8]) -> Answer {
        call(
            &mut self.files,
            &mut self.contents,
            &mut self.open_files,
            &mut self.processes,
            &self.policy,
            &self.rom,
            request,
            path,
            data,
            buffer,
        )
    }

    /// The same with no test of soundness.
    pub fn raw_act(
        &mut self,
        request: Request,
        path: &[u8],
        data: &[u8],
        buffer: &mut [u8],
    ) -> Answer {
        act(
            &mut self.files,
            &mut self.contents,
            &mut self.open_files,
            &mut self.processes,
            &self.policy,
            &self.rom,
            request,
            path,
            data,
            buffer,
        )
    }

    /// A call on sound tables, held to what is true of every call.
    pub fn call(
        &mut self,
        request: Request,
        path: &[u8],
        data: &[u8],
        buffer: &mut [u8],
    ) -> Answer {
        assert!(self.is_sound());
        let (before, lent) = (self.clone(), buffer.to_vec());
        let answer = self.raw(request, path, data, buffer);

        let (mut other, mut other_buffer) = (before.clone(), lent.clone());
        let unasked = other.raw_act(request, path, data, &mut other_buffer);
        assert_eq!((&unasked, &other), (&answer, &*self));
        assert_eq!(other_buffer, buffer);

        assert!(self.is_sound());
        assert_eq!(self.policy, before.policy);
        let read = answer.refusal == 0 && [11, 19].contains(&request.call);
        let written = if read { answer.value as usize } else { 0 };
        assert_eq!(buffer[written..], lent[written..]);
        if answer.refusal != 0 {
            assert_eq!(*self, before);
            assert_eq!((answer.value, &answer.name[..]), (0, &b""[..]));
            assert_eq!(answer.fields, None);
        } else {
            assert_eq!(answer.stop, 0);
        }
        answer
    }
}
