//! The four buffers that a host lends to every call, and the lengths of the three files in them.
use std::ops::{Deref, DerefMut};

/// A page has this many bytes.
pub const PAGE_BYTES: usize = 4096;

/// A whole page.
pub type Page = [u8; PAGE_BYTES];

/// The three files of a store. On disk they are `store.db.wal`, `store.db` and `store.db.clog`.
#[derive(Clone, Copy, Debug, PartialEq, Eq)]
pub enum File {
    Log,
    Database,
    Clog,
}

/// How many bytes of their buffers the files have.
#[derive(Clone, Copy, Debug, Default, PartialEq, Eq)]
pub struct Lengths {
    pub log: usize,
    pub db: usize,
    pub clog: usize,
}

/// How many bytes the buffers have.
#[derive(Clone, Copy, Debug, PartialEq, Eq)]
pub struct Sizes {
    pub log: usize,
    pub db: usize,
    pub clog: usize,
    pub frames: usize,
}

#[derive(Debug)]
enum Buffer<'a> {
    Owned(Vec<u8>),
    Lent(&'a mut [u8]),
}

impl Deref for Buffer<'_> {
    type Target = [u8];
    fn deref(&self) -> &[u8] {
        match self {
            Buffer::Owned(bytes) => bytes,
            Buffer::Lent(bytes) => bytes,
        }
    }
}

impl DerefMut for Buffer<'_> {
    fn deref_mut(&mut self) -> &mut [u8] {
        match self {
            Buffer::Owned(bytes) => bytes,
            Buffer::Lent(bytes) => bytes,
        }
    }
}

impl Clone for Buffer<'_> {
    fn clone(&self) -> Self {
        Buffer::Owned(self.to_vec())
    }
}

/// The buffers of log, database, clog and frames, owned or borrowed, and the lengths of the first three. Every call borrows all four at once through this one
/// value, so no two of them can be the same bytes.
///
/// ```
/// use nyotmelang::{File, Files, Sizes};
/// let mut files = Files::new(Sizes { log: 8192, db: 16384, clog: 64, frames: 8192 });
/// files.append(File::Log, b"AEROWAL2");
/// assert_eq!(files.len(File::Log), 8);
/// assert_eq!(files.content(File::Log), b"AEROWAL2");
///
/// let (mut log, mut db, mut clog, mut frames) = ([0; 64], [0; 4096], [0; 16], [0; 4096]);
/// let lent = Files::lent(&mut log, &mut db, &mut clog, &mut frames);
/// assert_eq!(lent.buffer(File::Database).len(), 4096);
/// ```
///
/// The same buffer cannot be lent twice:
///
/// ```compile_fail,E0499
/// use nyotmelang::Files;
/// let (mut both, mut clog, mut frames) = ([0; 4096], [0; 16], [0; 4096]);
/// let files = Files::lent(&mut both, &mut both, &mut clog, &mut frames);
/// ```
#[derive(Clone, Debug)]
pub struct Files<'a> {
    log: Buffer<'a>,
    db: Buffer<'a>,
    clog: Buffer<'a>,
    frames: Buffer<'a>,
    lengths: Lengths,
}

/// The four buffers of a call that writes them.
pub(crate) struct Lent<'b> {
    pub log: &'b mut [u8],
    pub db: &'b mut [u8],
    pub clog: &'b mut [u8],
    pub frames: &'b mut [u8],
}

impl Files<'static> {
    /// Owned buffers of zeros; the files are empty.
    pub fn new(sizes: Sizes) -> Files<'static> {
        Files::filled(sizes, 0)
    }

    /// Owned buffers, every byte of which is `byte`; the files are empty.
    pub fn filled(sizes: Sizes, byte: u8) -> Files<'static> {
        let buffer = |size| Buffer::Owned(vec![byte; size]);
        Files {
            log: buffer(sizes.log),
            db: buffer(sizes.db),
            clog: buffer(sizes.clog),
            frames: buffer(sizes.frames),
            lengths: Lengths::default(),
        }
    }

    /// The frame buffer is cut or lengthened to `size`, by bytes of this value.
    pub fn resize_frames(&mut self, size: usize, byte: u8) {
        let mut frames = self.frames.to_vec();
        frames.resize(size, byte);
        self.frames = Buffer::Owned(frames);
    }
}

impl<'a> Files<'a> {
    /// Borrowed buffers; the files are empty until their lengths are set.
    pub fn lent(log: &'a mut [u8], db: &'a mut [u8], clog: &'a mut [u8], frames: &'a mut [u8]) -> Files<'a> {
        let [log, db, clog, frames] = [log, db, clog, frames].map(Buffer::Lent);
        Files { log, db, clog, frames, lengths: Lengths::default() }
    }

    /// A file's whole buffer.
    pub fn buffer(&self, file: File) -> &[u8] {
        match file {
            File::Log => &self.log,
            File::Database => &self.db,
            File::Clog => &self.clog,
        }
    }

    pub fn buffer_mut(&mut self, file: File) -> &mut [u8] {
        match file {
            File::Log => &mut self.log,
            File::Database => &mut self.db,
            File::Clog => &mut self.clog,
        }
    }

    /// The buffer in which resident pages stand, a whole page to a frame.
    pub fn frames(&self) -> &[u8] {
        &self.frames
    }

    pub fn frames_mut(&mut self) -> &mut [u8] {
        &mut self.frames
    }

    pub fn lengths(&self) -> Lengths {
        self.lengths
    }

    pub fn set_lengths(&mut self, lengths: Lengths) {
        self.lengths = lengths;
    }

    pub fn len(&self, file: File) -> usize {
        match file {
            File::Log => self.lengths.log,
            File::Database => self.lengths.db,
            File::Clog => self.lengths.clog,
        }
    }

    /// A length over the buffer is kept as it is; every call refuses it with [`Refusal::Unfit`](crate::Refusal::Unfit).
    pub fn set_len(&mut self, file: File, len: usize) {
        match file {
            File::Log => self.lengths.log = len,
            File::Database => self.lengths.db = len,
            File::Clog => self.lengths.clog = len,
        }
    }

    /// The bytes of a file: of its buffer, up to its length.
    pub fn content(&self, file: File) -> &[u8] {
        let buffer = self.buffer(file);
        &buffer[..self.len(file).min(buffer.len())]
    }

    /// Bytes put after the last one of a file. Those that do not fit are dropped, and the length says so by going over the buffer.
    pub fn append(&mut self, file: File, bytes: &[u8]) {
        let len = self.len(file);
        let buffer = self.buffer_mut(file);
        if len < buffer.len() {
            let fits = bytes.len().min(buffer.len() - len);
            buffer[len..len + fits].copy_from_slice(&bytes[..fits]);
        }
        self.set_len(file, len.saturating_add(bytes.len()));
    }

    pub(crate) fn lend(&mut self) -> Lent<'_> {
        Lent { log: &mut self.log, db: &mut self.db, clog: &mut self.clog, frames: &mut self.frames }
    }
}
