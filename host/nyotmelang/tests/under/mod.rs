//! A disk under the files that keeps what was synced apart from what was not. It can be cut off at any step, fail at one, and leave a sync out.
use nyotmelang::layer::Layer;
use nyotmelang::File;
use std::cell::RefCell;
use std::collections::BTreeSet;
use std::io;
use std::path::{Path, PathBuf};
use std::rc::Rc;

/// Log, database, clog.
pub type Contents = [Vec<u8>; 3];

pub const FILES: [File; 3] = [File::Log, File::Database, File::Clog];

pub fn place(file: File) -> usize {
    FILES.into_iter().position(|other| other == file).expect("a file")
}

#[derive(Clone, Debug)]
enum Change {
    Bytes(usize, Vec<u8>),
    Length(usize),
}

fn made(change: &Change, content: &mut Vec<u8>) {
    match change {
        Change::Bytes(offset, bytes) => {
            let end = offset + bytes.len();
            if content.len() < end {
                content.resize(end, 0);
            }
            content[*offset..end].copy_from_slice(bytes);
        }
        Change::Length(len) => content.resize(*len, 0),
    }
}

#[derive(Default)]
pub struct Platter {
    /// The files as a process sees them, and as they are if power goes now and nothing more reaches the disk.
    pub seen: Contents,
    pub kept: Contents,
    // What is not synced yet, in order.
    waiting: Vec<(usize, Change)>,
    // Folders that are there, and names that stay: of folders, and of the files in one.
    folders: BTreeSet<PathBuf>,
    named: BTreeSet<PathBuf>,
    locked: bool,
    /// Writes, lengths and syncs, from 1 on, files and folders.
    pub changes: usize,
    pub syncs: usize,
    // This sync does nothing.
    left_out: Option<usize>,
    // This change fails after half of its bytes, and with `dead` everything after it.
    failing: Option<usize>,
    dead: bool,
    failed: bool,
    /// A change that came while an earlier one was not synced.
    pub disorder: Vec<String>,
    /// Every state that a power cut can leave, from the first change on.
    pub crashes: Vec<Contents>,
}

impl Platter {
    /// With these files, all synced, in a folder that stays.
    pub fn with(contents: Contents, folder: &Path) -> Platter {
        let mut platter = Platter { seen: contents.clone(), kept: contents, ..Platter::default() };
        platter.folders.extend(folder.ancestors().map(Path::to_path_buf));
        platter.named.extend(folder.ancestors().map(Path::to_path_buf));
        platter.named.extend(FILES.map(|file| folder.join(format!("{file:?}"))));
        platter
    }

    /// The n-th sync does nothing.
    pub fn without(n: usize) -> Platter {
        Platter { left_out: Some(n), ..Platter::default() }
    }

    /// The n-th change fails after half of its bytes; then the disk works again, or not.
    pub fn failing(n: usize, dead: bool) -> Platter {
        Platter { failing: Some(n), dead, ..Platter::default() }
    }

    /// Whether a file's name and those of all folders above it stay.
    pub fn stays(&self, folder: &Path) -> bool {
        let files = FILES.map(|file| folder.join(format!("{file:?}")));
        let above = folder.ancestors().filter(|path| path.parent().is_some());
        above.map(Path::to_path_buf).chain(files).all(|path| self.named.contains(&path))
    }

    /// Nothing waits for a sync.
    pub fn settled(&self) -> bool {
        self.waiting.is_empty()
    }

    // Any of the changes that wait may be on the disk, or none: file systems keep no order between syncs.
    fn note_crashes(&mut self) {
        for some in 0..1usize << self.waiting.len().min(6) {
            let mut left = self.kept.clone();
            for (i, (file, change)) in self.waiting.iter().enumerate() {
                if some >> i & 1 == 1 {
                    made(change, &mut left[*file]);
                }
            }
            if self.crashes.last() != Some(&left) {
                self.crashes.push(left);
            }
        }
    }

    fn change(&mut self, file: usize, change: Change) -> io::Result<()> {
        if let Some((_, earlier)) = self.waiting.first() {
            self.disorder.push(format!("{change:?} came before the sync of {earlier:?}"));
        }
        self.changes += 1;
        let fails = self.failing == Some(self.changes);
        if self.dead && self.failed {
            return Err(io::Error::other("the disk is gone"));
        }
        self.failed |= fails;
        let change = match change {
            Change::Bytes(offset, bytes) if fails => Change::Bytes(offset, bytes[..bytes.len() / 2].to_vec()),
            Change::Length(_) if fails => return Err(io::ErrorKind::StorageFull.into()),
            change => change,
        };
        made(&change, &mut self.seen[file]);
        self.waiting.push((file, change));
        self.note_crashes();
        if fails {
            return Err(io::ErrorKind::StorageFull.into());
        }
        Ok(())
    }

    // The next sync; false where it is left out.
    fn syncing(&mut self) -> io::Result<bool> {
        self.syncs += 1;
        if self.dead && self.failed {
            return Err(io::Error::other("the disk is gone"));
        }
        Ok(self.left_out != Some(self.syncs))
    }
}

/// A handle to a disk that the test has too.
#[derive(Clone)]
pub struct Under(pub Rc<RefCell<Platter>>);

impl Under {
    pub fn new(platter: Platter) -> Under {
        Under(Rc::new(RefCell::new(platter)))
    }

    /// The process has ended.
    pub fn unlock(&self) {
        self.0.borrow_mut().locked = false;
    }
}

impl Layer for Under {
    fn make_folder(&mut self, folder: &Path) -> io::Result<()> {
        let mut platter = self.0.borrow_mut();
        match folder.parent() {
            Some(above) if !platter.folders.contains(above) && above.parent().is_some() => {
                Err(io::ErrorKind::NotFound.into())
            }
            _ => {
                platter.folders.insert(folder.to_path_buf());
                Ok(())
            }
        }
    }

    fn sync_folder(&mut self, folder: &Path) -> io::Result<()> {
        let mut platter = self.0.borrow_mut();
        if platter.syncing()? {
            let inside: Vec<_> = platter.folders.iter().filter(|path| path.parent() == Some(folder)).cloned().collect();
            platter.named.extend(inside);
        }
        Ok(())
    }

    fn lock(&mut self, _: &Path) -> io::Result<()> {
        let mut platter = self.0.borrow_mut();
        match std::mem::replace(&mut platter.locked, true) {
            true => Err(io::ErrorKind::WouldBlock.into()),
            false => Ok(()),
        }
    }

    fn open(&mut self, folder: &Path, file: File, most: usize) -> io::Result<Vec<u8>> {
        let mut platter = self.0.borrow_mut();
        assert!(platter.locked, "a file is read before the folder is locked");
        platter.folders.insert(folder.join(format!("{file:?}")));
        let content = &platter.seen[place(file)];
        Ok(content[..content.len().min(most)].to_vec())
    }

    fn write(&mut self, file: File, offset: usize, bytes: &[u8]) -> io::Result<()> {
        self.0.borrow_mut().change(place(file), Change::Bytes(offset, bytes.to_vec()))
    }

    fn set_len(&mut self, file: File, len: usize) -> io::Result<()> {
        self.0.borrow_mut().change(place(file), Change::Length(len))
    }

    fn sync(&mut self, file: File) -> io::Result<()> {
        let mut platter = self.0.borrow_mut();
        if platter.syncing()? {
            let (done, rest) = std::mem::take(&mut platter.waiting).into_iter().partition(|(at, _)| *at == place(file));
            platter.waiting = rest;
            let done: Vec<(usize, Change)> = done;
            for (at, change) in done {
                made(&change, &mut platter.kept[at]);
            }
        }
        Ok(())
    }
}
