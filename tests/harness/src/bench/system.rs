//! The same opens, reads, writes and closes as system calls on a tmpfs.

use super::mix::*;
use super::stores::*;
use super::timing::{nanoseconds, side_by_side};
use std::ffi::{c_char, c_int, c_void, CString};
use std::fs;
use std::io;
use std::path::PathBuf;

const TMPFS: &str = "/dev/shm";
const FILES: usize = 16;
const CYCLES: usize = 2500;
const O_RDWR: c_int = 2;

unsafe extern "C" {
    fn open(path: *const c_char, flags: c_int, ...) -> c_int;
    fn read(descriptor: c_int, bytes: *mut c_void, count: usize) -> isize;
    fn write(descriptor: c_int, bytes: *const c_void, count: usize) -> isize;
    fn close(descriptor: c_int) -> c_int;
}

/// A directory of its own, removed at the end.
struct Directory(PathBuf);

impl Directory {
    fn make() -> io::Result<Directory> {
        let name = format!("mritvelja-bench-{}", std::process::id());
        let directory = Directory(PathBuf::from(TMPFS).join(name));
        fs::create_dir_all(directory.0.join("d"))?;
        for number in 0..FILES {
            fs::write(directory.file(number), [7; FILE_BYTES])?;
        }
        Ok(directory)
    }

    fn file(&self, number: usize) -> PathBuf {
        self.0.join("d").join(file_name(number))
    }

    fn paths(&self) -> io::Result<Vec<CString>> {
        (0..FILES)
            .map(|number| {
                Ok(CString::new(
                    self.file(number).into_os_string().into_encoded_bytes(),
                )?)
            })
            .collect()
    }
}

impl Drop for Directory {
    fn drop(&mut self) {
        // What cannot be removed is left: the times stand all the same.
        let _ = fs::remove_dir_all(&self.0);
    }
}

fn is_tmpfs() -> bool {
    let mounts = fs::read_to_string("/proc/mounts").unwrap_or_default();
    mounts
        .lines()
        .map(|line| line.split(' ').collect::<Vec<_>>())
        .any(|words| matches!(words[..], [_, TMPFS, "tmpfs", ..]))
}

/// Prints the store and the reference beside the system calls.
pub fn print_system_calls() {
    println!("\n## (4) Open, read {CALL_BYTES} bytes, write {CALL_BYTES} bytes, close, beside system calls on {TMPFS}\n");
    if !is_tmpfs() {
        println!("Left out: {TMPFS} is not a tmpfs.");
        return;
    }
    match Directory::make().and_then(|directory| directory.paths().map(|paths| (directory, paths)))
    {
        Ok((_directory, paths)) => print_times(&paths),
        Err(error) => println!("Left out: no files could be made in {TMPFS}: {error}"),
    }
}

fn print_times(paths: &[CString]) {
    let calls: Vec<_> = (0..FILES)
        .flat_map(|number| cycle(format!("/d/{}", file_name(number)).as_bytes()))
        .collect();
    let scene = [repeat(one_directory(FILES), &calls, CYCLES / FILES)];
    let times = side_by_side([
        &mut || time_scenes(store_acts, &scene),
        &mut || time_scenes(store_calls, &scene),
        &mut || time_scenes(reference_acts, &scene),
        &mut || time_scenes(reference_calls, &scene),
        &mut || time_system(paths),
    ]);
    let system = times[4];
    println!("| program | ns a call | of the system calls |\n|---|---:|---:|");
    let names = [
        "store, without the soundness test",
        "store, with the soundness test",
        "reference, without the soundness test",
        "reference, with the soundness test",
        "system calls",
    ];
    for (name, time) in names.iter().zip(times) {
        println!("| {name} | {time:.0} | {:.2} |", time / system);
    }
}

/// Nanoseconds for a system call.
fn time_system(paths: &[CString]) -> f64 {
    let mut bytes = [5u8; CALL_BYTES];
    let cycles = CYCLES / FILES * FILES;
    let total = nanoseconds(|| {
        for number in 0..cycles {
            cycle_once(&paths[number % FILES], &mut bytes);
        }
    });
    total / (4 * cycles) as f64
}

fn cycle_once(path: &CString, bytes: &mut [u8; CALL_BYTES]) {
    // SAFETY: the path ends in 0, and the count is that of the bytes lent.
    unsafe {
        let descriptor = open(path.as_ptr(), O_RDWR);
        assert!(descriptor >= 0, "open failed");
        let got = read(descriptor, bytes.as_mut_ptr().cast(), CALL_BYTES);
        let put = write(descriptor, bytes.as_ptr().cast(), CALL_BYTES);
        assert!(got == CALL_BYTES as isize && put == CALL_BYTES as isize);
        assert!(close(descriptor) == 0, "close failed");
    }
}
