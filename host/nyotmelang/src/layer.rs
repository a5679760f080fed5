//! What lies under a store's files: the system, or in tests a disk that is full, or that loses what was not synced.
use crate::files::File;
use crate::lock::lock;
use std::fs::{self, OpenOptions};
use std::io::{self, Read};
use std::os::unix::fs::FileExt;
use std::path::Path;

/// Every way in which a store on disk reaches its folder and its files. A file is one of the folder that was opened.
pub trait Layer {
    /// A folder is made, in one that is there. One that is there already stays.
    fn make_folder(&mut self, folder: &Path) -> io::Result<()>;
    /// The names in a folder stay.
    fn sync_folder(&mut self, folder: &Path) -> io::Result<()>;
    /// No other process gets the folder as long as this one runs, or an error where another has it.
    fn lock(&mut self, folder: &Path) -> io::Result<()>;
    /// A file is opened, made where it is missing, and read: its first bytes, at most so many.
    fn open(&mut self, folder: &Path, file: File, most: usize) -> io::Result<Vec<u8>>;
    /// A gap before the offset is filled with zeros, as by the library.
    fn write(&mut self, file: File, offset: usize, bytes: &[u8]) -> io::Result<()>;
    fn set_len(&mut self, file: File, len: usize) -> io::Result<()>;
    /// What was written to a file, and its length, stay.
    fn sync(&mut self, file: File) -> io::Result<()>;
}

/// The name that a file has in its folder.
pub fn name_of(file: File) -> &'static str {
    match file {
        File::Log => "store.db.wal",
        File::Database => "store.db",
        File::Clog => "store.db.clog",
    }
}

// An empty file, which is there for its lock alone.
const LOCK: &str = "store.db.lock";

/// The files of a folder as the system keeps them.
#[derive(Debug, Default)]
pub struct System {
    log: Option<fs::File>,
    db: Option<fs::File>,
    clog: Option<fs::File>,
    locked: Option<fs::File>,
}

impl System {
    fn place(&mut self, file: File) -> &mut Option<fs::File> {
        match file {
            File::Log => &mut self.log,
            File::Database => &mut self.db,
            File::Clog => &mut self.clog,
        }
    }

    fn handle(&mut self, file: File) -> io::Result<&fs::File> {
        self.place(file).as_ref().ok_or_else(|| io::Error::other("the file was not opened"))
    }
}

fn opened(path: &Path) -> io::Result<fs::File> {
    OpenOptions::new().read(true).write(true).create(true).truncate(false).open(path)
}

impl Layer for System {
    fn make_folder(&mut self, folder: &Path) -> io::Result<()> {
        match fs::create_dir(folder) {
            Err(error) if error.kind() == io::ErrorKind::AlreadyExists => Ok(()),
            done => done,
        }
    }

    fn sync_folder(&mut self, folder: &Path) -> io::Result<()> {
        fs::File::open(folder)?.sync_all()
    }

    fn lock(&mut self, folder: &Path) -> io::Result<()> {
        let handle = opened(&folder.join(LOCK))?;
        lock(&handle).map_err(|error| match error.kind() {
            io::ErrorKind::WouldBlock => {
                io::Error::new(error.kind(), format!("another process keeps the store in {}", folder.display()))
            }
            _ => error,
        })?;
        self.locked = Some(handle);
        Ok(())
    }

    fn open(&mut self, folder: &Path, file: File, most: usize) -> io::Result<Vec<u8>> {
        let handle = opened(&folder.join(name_of(file)))?;
        let mut bytes = Vec::new();
        (&handle).take(most as u64).read_to_end(&mut bytes)?;
        *self.place(file) = Some(handle);
        Ok(bytes)
    }

    fn write(&mut self, file: File, offset: usize, bytes: &[u8]) -> io::Result<()> {
        self.handle(file)?.write_all_at(bytes, offset as u64)
    }

    fn set_len(&mut self, file: File, len: usize) -> io::Result<()> {
        self.handle(file)?.set_len(len as u64)
    }

    fn sync(&mut self, file: File) -> io::Result<()> {
        self.handle(file)?.sync_all()
    }
}
