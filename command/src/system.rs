//! What the C library has and the standard library has not. Each function is safe:
//! it borrows what it hands over, and hands over nothing but that.

use std::ffi::{c_char, c_int, c_uint, c_void, CStr, CString};
use std::fs::File;
use std::io::{self, ErrorKind};
use std::os::fd::AsRawFd;
use std::os::unix::ffi::OsStrExt;
use std::path::Path;

unsafe extern "C" {
    fn fcntl(descriptor: c_int, command: c_int, ...) -> c_int;
    fn flistxattr(descriptor: c_int, list: *mut c_char, size: usize) -> isize;
    fn fgetxattr(descriptor: c_int, name: *const c_char, value: *mut c_void, size: usize) -> isize;
    fn fsetxattr(
        descriptor: c_int,
        name: *const c_char,
        value: *const c_void,
        size: usize,
        flags: c_int,
    ) -> c_int;
    fn fremovexattr(descriptor: c_int, name: *const c_char) -> c_int;
    fn syncfs(descriptor: c_int) -> c_int;
    fn renameat2(
        old_directory: c_int,
        old: *const c_char,
        new_directory: c_int,
        new: *const c_char,
        flags: c_uint,
    ) -> c_int;
}

const F_GETFL: c_int = 3;
const O_ACCMODE: c_int = 3;
/// Names are taken from the working directory on, as everywhere else.
const AT_FDCWD: c_int = -100;
const RENAME_NOREPLACE: c_uint = 1;
/// The most bytes that a list of attributes or an attribute has.
const LARGEST_ATTRIBUTE: usize = 65_536;

/// What a descriptor is open for.
#[derive(PartialEq, Eq)]
pub enum Access {
    Read,
    Write,
    Both,
}

/// Nothing if no file is open there.
pub fn access(descriptor: c_int) -> Option<Access> {
    // SAFETY: the command only reads a descriptor's flags, and any number is taken.
    match unsafe { fcntl(descriptor, F_GETFL) } {
        -1 => None,
        flags => Some(match flags & O_ACCMODE {
            0 => Access::Read,
            1 => Access::Write,
            _ => Access::Both,
        }),
    }
}

fn result(returned: c_int) -> io::Result<()> {
    match returned {
        0 => Ok(()),
        _ => Err(io::Error::last_os_error()),
    }
}

/// Writes everything of a file's file system to the disk, names too.
pub fn sync_file_system(file: &File) -> io::Result<()> {
    // SAFETY: the descriptor is open as long as the file is borrowed.
    result(unsafe { syncfs(file.as_raw_fd()) })
}

/// Gives a file a new name that no file has, in one step.
pub fn rename_to_new(old: &Path, new: &Path) -> io::Result<()> {
    let old = CString::new(old.as_os_str().as_bytes())?;
    let new = CString::new(new.as_os_str().as_bytes())?;
    // SAFETY: both names end with 0 and live until the call returns.
    result(unsafe {
        renameat2(
            AT_FDCWD,
            old.as_ptr(),
            AT_FDCWD,
            new.as_ptr(),
            RENAME_NOREPLACE,
        )
    })
}

/// What a function writes that is lent room and answers how much of it was used.
fn written(write: impl FnOnce(*mut u8, usize) -> isize) -> io::Result<Vec<u8>> {
    let mut bytes = vec![0; LARGEST_ATTRIBUTE];
    let used = usize::try_from(write(bytes.as_mut_ptr(), bytes.len()))
        .map_err(|_| io::Error::last_os_error())?;
    bytes.truncate(used);
    Ok(bytes)
}

/// The names of a file's extended attributes; none where there can be none.
pub fn attribute_names(file: &File) -> io::Result<Vec<CString>> {
    // SAFETY: the list has as much room as is said.
    let list = written(|list, size| unsafe { flistxattr(file.as_raw_fd(), list.cast(), size) });
    match list {
        Err(error) if error.kind() == ErrorKind::Unsupported => Ok(Vec::new()),
        list => Ok(list?
            .split_inclusive(|&byte| byte == 0)
            .filter_map(|name| CStr::from_bytes_with_nul(name).ok().map(CString::from))
            .collect()),
    }
}

pub fn attribute(file: &File, name: &CStr) -> io::Result<Vec<u8>> {
    // SAFETY: the name ends with 0, and the value has as much room as is said.
    written(|value, size| unsafe { fgetxattr(file.as_raw_fd(), name.as_ptr(), value.cast(), size) })
}

pub fn set_attribute(file: &File, name: &CStr, value: &[u8]) -> io::Result<()> {
    // SAFETY: the name ends with 0, and the value has as many bytes as is said.
    result(unsafe {
        fsetxattr(
            file.as_raw_fd(),
            name.as_ptr(),
            value.as_ptr().cast(),
            value.len(),
            0,
        )
    })
}

pub fn remove_attribute(file: &File, name: &CStr) -> io::Result<()> {
    // SAFETY: the name ends with 0.
    result(unsafe { fremovexattr(file.as_raw_fd(), name.as_ptr()) })
}
