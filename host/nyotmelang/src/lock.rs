//! A lock on an open file. The system takes it back when the process ends, however it ends; nothing is left behind in the folder that a next process would have to clear.
#![allow(unsafe_code)]
use std::ffi::c_int;
use std::fs::File;
use std::io;
use std::os::fd::AsRawFd;

const EXCLUSIVE: c_int = 2;
const AT_ONCE: c_int = 4;

extern "C" {
    fn flock(fd: c_int, operation: c_int) -> c_int;
}

/// The lock, or at once an error where another open file has it.
pub(crate) fn lock(file: &File) -> io::Result<()> {
    match unsafe { flock(file.as_raw_fd(), EXCLUSIVE | AT_ONCE) } {
        0 => Ok(()),
        _ => Err(io::Error::last_os_error()),
    }
}
