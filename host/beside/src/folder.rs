//! A folder for the Rust's files, in memory where that can be, which is gone when it is dropped.
use std::path::{Path, PathBuf};
use std::{env, fs, io, process};

pub struct Folder(PathBuf);

impl Folder {
    pub fn new() -> io::Result<Folder> {
        let memory = Path::new("/dev/shm");
        let root = if memory.is_dir() { memory.to_path_buf() } else { env::temp_dir() };
        let folder = root.join(format!("beside-{}", process::id()));
        fs::create_dir_all(&folder)?;
        Ok(Folder(folder))
    }

    pub fn path(&self) -> &Path {
        &self.0
    }
}

impl Drop for Folder {
    fn drop(&mut self) {
        // What is left there does no harm.
        let _ = fs::remove_dir_all(&self.0);
    }
}
