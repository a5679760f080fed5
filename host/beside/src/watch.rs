//! What this process writes. The functions here stand in the place of libc's: the standard library's calls of `write`, `ftruncate` and `fsync` come to them, and
//! they make the system calls. Asked to, they note every write and truncation of three files in a journal, or leave out every sync.
#![allow(unsafe_code)]
use std::ffi::{c_int, c_long, c_void};
use std::fmt;
use std::fs::File;
use std::mem::ManuallyDrop;
use std::os::fd::FromRawFd;
use std::os::unix::fs::MetadataExt;
use std::sync::atomic::{AtomicBool, Ordering};
use std::sync::{Mutex, MutexGuard};

/// One write or truncation of one of the three files.
#[derive(Clone, PartialEq, Eq)]
pub enum Step {
    Write { file: usize, offset: usize, bytes: Vec<u8> },
    Cut { file: usize, len: usize },
}

/// Where, and how many bytes.
impl fmt::Debug for Step {
    fn fmt(&self, f: &mut fmt::Formatter<'_>) -> fmt::Result {
        match self {
            Step::Write { file, offset, bytes } => write!(f, "file {file}: {} bytes at {offset}", bytes.len()),
            Step::Cut { file, len } => write!(f, "file {file}: cut to {len}"),
        }
    }
}

impl Step {
    /// The step is carried out on copies of the files. A gap is filled with zeros, as the kernel does.
    pub fn redo(&self, files: &mut [Vec<u8>; 3]) {
        match self {
            Step::Cut { file, len } => files[*file].resize(*len, 0),
            Step::Write { file, offset, bytes } => {
                let (file, end) = (&mut files[*file], offset + bytes.len());
                if file.len() < end {
                    file.resize(end, 0);
                }
                file[*offset..end].copy_from_slice(bytes);
            }
        }
    }
}

struct Journal {
    files: [(u64, u64); 3],
    steps: Vec<Step>,
}

static WATCHING: AtomicBool = AtomicBool::new(false);
static UNSYNCED: AtomicBool = AtomicBool::new(false);
static JOURNAL: Mutex<Journal> = Mutex::new(Journal { files: [(0, 0); 3], steps: Vec::new() });

fn journal() -> MutexGuard<'static, Journal> {
    JOURNAL.lock().unwrap_or_else(|poisoned| poisoned.into_inner())
}

/// Device and number, by which a file is known under any of its handles.
pub fn identity(file: &File) -> (u64, u64) {
    file.metadata().map_or((0, 0), |m| (m.dev(), m.ino()))
}

/// What is written to these files while `call` runs, in order.
pub fn watched<T>(files: [(u64, u64); 3], call: impl FnOnce() -> T) -> (T, Vec<Step>) {
    *journal() = Journal { files, steps: Vec::new() };
    WATCHING.store(true, Ordering::SeqCst);
    let done = call();
    WATCHING.store(false, Ordering::SeqCst);
    (done, std::mem::take(&mut journal().steps))
}

/// From now on a sync does nothing, or does what it says.
pub fn without_syncs(without: bool) {
    UNSYNCED.store(without, Ordering::SeqCst);
}

// ---- the system calls

extern "C" {
    fn syscall(number: c_long, ...) -> c_long;
}

#[cfg(target_arch = "x86_64")]
mod number {
    pub const WRITE: i64 = 1;
    pub const LSEEK: i64 = 8;
    pub const PWRITE: i64 = 18;
    pub const FSYNC: i64 = 74;
    pub const FDATASYNC: i64 = 75;
    pub const FTRUNCATE: i64 = 77;
}

const FROM_HERE: c_int = 1;

// Which of the watched files the handle is of.
fn place_of(fd: c_int) -> Option<usize> {
    let file = ManuallyDrop::new(unsafe { File::from_raw_fd(fd) });
    let own = identity(&file);
    journal().files.iter().position(|watched| *watched == own)
}

fn note_write(fd: c_int, offset: c_long, bytes: *const c_void, written: isize) {
    let (Some(file), Ok(count)) = (place_of(fd), usize::try_from(written)) else {
        return;
    };
    let bytes = unsafe { std::slice::from_raw_parts(bytes.cast::<u8>(), count) }.to_vec();
    journal().steps.push(Step::Write { file, offset: offset as usize, bytes });
}

/// # Safety
/// As for libc's function of this name.
#[no_mangle]
pub unsafe extern "C" fn write(fd: c_int, bytes: *const c_void, count: usize) -> isize {
    let watching = WATCHING.load(Ordering::Relaxed);
    let offset = if watching { syscall(number::LSEEK, fd, 0 as c_long, FROM_HERE) } else { 0 };
    let written = syscall(number::WRITE, fd, bytes, count) as isize;
    if watching {
        note_write(fd, offset, bytes, written);
    }
    written
}

/// # Safety
/// As for libc's function of this name.
#[no_mangle]
pub unsafe extern "C" fn pwrite64(fd: c_int, bytes: *const c_void, count: usize, offset: i64) -> isize {
    let written = syscall(number::PWRITE, fd, bytes, count, offset) as isize;
    if WATCHING.load(Ordering::Relaxed) {
        note_write(fd, offset, bytes, written);
    }
    written
}

/// # Safety
/// As for libc's function of this name.
#[no_mangle]
pub unsafe extern "C" fn pwrite(fd: c_int, bytes: *const c_void, count: usize, offset: i64) -> isize {
    pwrite64(fd, bytes, count, offset)
}

/// # Safety
/// As for libc's function of this name.
#[no_mangle]
pub unsafe extern "C" fn ftruncate64(fd: c_int, len: i64) -> c_int {
    let done = syscall(number::FTRUNCATE, fd, len) as c_int;
    if done == 0 && WATCHING.load(Ordering::Relaxed) {
        if let Some(file) = place_of(fd) {
            journal().steps.push(Step::Cut { file, len: len as usize });
        }
    }
    done
}

/// # Safety
/// As for libc's function of this name.
#[no_mangle]
pub unsafe extern "C" fn ftruncate(fd: c_int, len: i64) -> c_int {
    ftruncate64(fd, len)
}

fn sync(number: c_long, fd: c_int) -> c_int {
    if UNSYNCED.load(Ordering::Relaxed) {
        return 0;
    }
    unsafe { syscall(number, fd) as c_int }
}

/// # Safety
/// As for libc's function of this name.
#[no_mangle]
pub unsafe extern "C" fn fsync(fd: c_int) -> c_int {
    sync(number::FSYNC, fd)
}

/// # Safety
/// As for libc's function of this name.
#[no_mangle]
pub unsafe extern "C" fn fdatasync(fd: c_int) -> c_int {
    sync(number::FDATASYNC, fd)
}
