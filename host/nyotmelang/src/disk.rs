//! A store whose three files are kept on disk. The library works on buffers; what it tells of a call's stores is written to disk store by store, each one synced
//! before the next, so that a crash between two of them leaves the files as the library's cut of the call says. A store that fails is taken back, so that an error
//! leaves them so too; then the memory is ahead of the disk, and no further call is made.
use crate::calls::{Call, Kind, Telling};
use crate::executor::Executor;
use crate::files::{File, Files, Sizes};
use crate::layer::{name_of, Layer, System};
use crate::script::{Action, Command};
use crate::store::Store;
use crate::transcript::{files_line, store_line, Answer};
use std::fs;
use std::io::{self, Read};
use std::ops::Range;
use std::path::Path;
use std::{error, fmt};

/// The buffers: room for a commit of 64 pages in the log, 1,024 pages in the database, and every frame that a store can have.
pub const DISK_SIZES: Sizes = Sizes { log: 524288, db: 4194304, clog: 65536, frames: 262144 };

// An opening writes them in this order. The log comes last: until it is cut, opening again comes to the same.
const FILES: [File; 3] = [File::Database, File::Clog, File::Log];

/// What is about to be written to disk.
#[derive(Clone, Copy, Debug, PartialEq, Eq)]
pub enum Moment {
    /// The n-th store of all calls, from 1 on.
    Store(usize),
    /// The n-th file that an opening has changed, from 1 on.
    Opening(usize),
}

/// A store on disk. `gate` is asked before each moment; what it does there, as ending the process, is up to the host.
pub struct Disk<L: Layer, G: FnMut(Moment)> {
    executor: Executor,
    layer: L,
    gate: G,
    stores: usize,
    openings: usize,
    broken: bool,
}

// ---- a store that did not reach the disk

/// How a file was left by a store that failed.
#[derive(Debug)]
pub enum Left {
    /// It has its old bytes again, so many, and is synced.
    Back(usize),
    /// It could not be set back to so many bytes.
    Torn(usize, io::Error),
    /// It was being shortened, and is as before the store or as after it.
    Either,
}

/// A store that failed: in which file, why, and how that was left. It is what an error of [`Disk::run`] holds.
#[derive(Debug)]
pub struct Unkept {
    pub file: File,
    pub error: io::Error,
    pub left: Left,
}

impl fmt::Display for Unkept {
    fn fmt(&self, f: &mut fmt::Formatter<'_>) -> fmt::Result {
        write!(f, "{}: {}; ", name_of(self.file), self.error)?;
        match &self.left {
            Left::Back(len) => write!(f, "it was set back to its {len} bytes and synced"),
            Left::Torn(len, error) => write!(f, "it could not be set back to its {len} bytes: {error}"),
            Left::Either => write!(f, "it was being shortened, and has its old length or its new one"),
        }
    }
}

impl error::Error for Unkept {
    fn source(&self) -> Option<&(dyn error::Error + 'static)> {
        Some(&self.error)
    }
}

// ---- opening a folder

impl<G: FnMut(Moment)> Disk<System, G> {
    /// The files of a folder, which is made where it is missing, for this process alone. No store is open yet.
    pub fn new(dir: &Path, gate: G) -> io::Result<Disk<System, G>> {
        Disk::over(System::default(), dir, DISK_SIZES, gate)
    }
}

impl<L: Layer, G: FnMut(Moment)> Disk<L, G> {
    /// The same over a layer of the host's own, and with buffers of these sizes. A file that is longer than its buffer has a length that every call refuses.
    pub fn over(mut layer: L, dir: &Path, sizes: Sizes, gate: G) -> io::Result<Disk<L, G>> {
        make(&mut layer, dir)?;
        layer.lock(dir)?;
        let mut files = Files::new(sizes);
        for file in FILES {
            let bytes = layer.open(dir, file, files.buffer(file).len() + 1)?;
            files.append(file, &bytes);
        }
        // The names of new files are to stay as well.
        layer.sync_folder(dir)?;
        let executor = Executor::with_files(files);
        Ok(Disk { executor, layer, gate, stores: 0, openings: 0, broken: false })
    }

    /// How many stores went to disk.
    pub fn stores(&self) -> usize {
        self.stores
    }

    pub fn files(&self) -> &Files<'static> {
        self.executor.files()
    }
}

// The folder's own name stays by a sync of the folder above it, also where a process that made it has died before its sync; so does each folder that is made above.
fn make(layer: &mut impl Layer, dir: &Path) -> io::Result<()> {
    let Some(above) = dir.parent() else {
        return Ok(());
    };
    let above = if above.as_os_str().is_empty() { Path::new(".") } else { above };
    match layer.make_folder(dir) {
        Err(error) if error.kind() == io::ErrorKind::NotFound => {
            make(layer, above)?;
            layer.make_folder(dir)?;
        }
        done => done?,
    }
    layer.sync_folder(above)
}

// ---- calls

impl<L: Layer, G: FnMut(Moment)> Disk<L, G> {
    /// Carries a command out, on disk too: its lines, R, S and D of a transcript; or why it is no command for a store on disk. After an error every command is one.
    pub fn run(&mut self, command: &Command) -> io::Result<Result<String, String>> {
        if self.broken {
            return Err(io::Error::other("an earlier store did not reach the disk: open the folder anew"));
        }
        let answer = match command {
            Command::Make(..) => return Ok(self.executor.run(command).map(without_buffers)),
            Command::Action(Action::Open) => self.kept(Disk::open)?,
            Command::Action(Action::Stores(call)) => self.kept(|disk| disk.call(call))?,
            Command::Action(action) => self.executor.act(action),
            _ => return Ok(Err("no call of a pager".to_string())),
        };
        Ok(Ok(self.lines(&answer)))
    }

    // After an error the memory is ahead of the disk.
    fn kept(&mut self, call: impl FnOnce(&mut Self) -> io::Result<Answer>) -> io::Result<Answer> {
        let done = call(self);
        self.broken = done.is_err();
        done
    }

    fn lines(&self, answer: &Answer) -> String {
        let files = self.executor.files();
        format!("R {answer}\n{}\n{}\n", store_line(self.executor.store(), files), files_line(files))
    }

    // What the opening changed is written; a refused one may have changed the database.
    fn open(&mut self) -> io::Result<Answer> {
        let before = self.executor.files().clone();
        let answer = self.executor.act(&Action::Open);
        for file in FILES {
            let (old, new) = (before.content(file), self.executor.files().content(file));
            if old != new {
                self.openings += 1;
                (self.gate)(Moment::Opening(self.openings));
                put(&mut self.layer, file, old, new, changed(old, new))?;
            }
        }
        Ok(answer)
    }

    // The call is made on the buffers; then each of its stores is written as the cut at it leaves the files.
    fn call(&mut self, call: &Call) -> io::Result<Answer> {
        let before = (self.executor.store().cloned(), self.executor.files().clone());
        let answer = self.executor.act(&Action::Stores(call.clone()));
        if let (Some(store), mut files, Answer::Accepted(_)) = (before.0, before.1.clone(), &answer) {
            let count = store.count(&before.1, call).map_err(io::Error::other)?;
            for k in 1..=count {
                let telling = store.told(&before.1, call, k).map_err(io::Error::other)?;
                let telling = telling.expect("a store up to the count");
                files = self.carry(&store, &before.1, &files, call, k, telling)?;
            }
        }
        Ok(answer)
    }

    // The k-th store, from the files as the one before has left them; they come back as this one leaves them.
    fn carry<'f>(
        &mut self,
        store: &Store,
        start: &Files<'f>,
        now: &Files<'f>,
        call: &Call,
        k: usize,
        telling: Telling,
    ) -> io::Result<Files<'f>> {
        let mut next = start.clone();
        store.clone().cut(&mut next, call, k).map_err(|(refusal, _)| io::Error::other(refusal))?;
        let file = match telling.kind {
            Kind::Append | Kind::Truncation => File::Log,
            Kind::Page => File::Database,
            Kind::Clog => File::Clog,
        };
        self.stores += 1;
        (self.gate)(Moment::Store(self.stores));
        let told = telling.offset..telling.offset + telling.length;
        put(&mut self.layer, file, now.content(file), next.content(file), told)?;
        Ok(next)
    }
}

// The transcript's fourth line is about whole buffers, which are no part of what is on disk.
fn without_buffers(lines: String) -> String {
    lines.lines().filter(|line| !line.starts_with("P ")).map(|line| format!("{line}\n")).collect()
}

// ---- one file

// From the first to past the last byte of the new content that is not as it was.
fn changed(old: &[u8], new: &[u8]) -> Range<usize> {
    let differs = |i: &usize| old.get(*i) != Some(&new[*i]);
    let from = (0..new.len()).find(differs).unwrap_or(new.len());
    let to = (from..new.len()).rev().find(differs).map_or(from, |last| last + 1);
    from..to
}

// A file gets its new content, which differs from the old one inside this range, in length, and in zeros before the range. It is shortened first and stays so before a
// byte is written: a header that is put right over a longer file would make something of the bytes behind it. Bytes that stand there already are not written again.
fn put(layer: &mut impl Layer, file: File, old: &[u8], new: &[u8], range: Range<usize>) -> io::Result<()> {
    let unkept = |error: io::Error, left| io::Error::new(error.kind(), Unkept { file, error, left });
    if new.len() < old.len() {
        let shortened = layer.set_len(file, new.len()).and_then(|()| layer.sync(file));
        shortened.map_err(|error| unkept(error, Left::Either))?;
    }
    let old = &old[..old.len().min(new.len())];
    if old.get(range.clone()) == new.get(range.clone()) {
        return Ok(());
    }
    let written = layer.write(file, range.start, &new[range.clone()]).and_then(|()| layer.sync(file));
    written.map_err(|error| match set_back(layer, file, old, range) {
        Ok(()) => unkept(error, Left::Back(old.len())),
        Err(again) => unkept(error, Left::Torn(old.len(), again)),
    })
}

// A write has failed, or its sync: bytes that it may have laid over are put back, and what it may have appended is cut off, so that no torn record stays in a log.
fn set_back(layer: &mut impl Layer, file: File, old: &[u8], range: Range<usize>) -> io::Result<()> {
    let over = range.start.min(old.len())..range.end.min(old.len());
    if !over.is_empty() {
        layer.write(file, over.start, &old[over])?;
    }
    layer.set_len(file, old.len())?;
    layer.sync(file)
}

/// The three files of a folder as they stand on disk, by [`File`]: log, database, clog.
pub fn on_disk(dir: &Path) -> io::Result<[Vec<u8>; 3]> {
    let read = |file| {
        let mut bytes = Vec::new();
        fs::File::open(dir.join(name_of(file)))?.read_to_end(&mut bytes)?;
        io::Result::Ok(bytes)
    };
    Ok([read(File::Log)?, read(File::Database)?, read(File::Clog)?])
}
