//! The five calls with stores: made whole, cut at a store, counted and told.
use crate::bytes::size;
use crate::files::{Files, Lengths};
use crate::port;
use crate::refusal::Refusal;
use crate::store::{read_only, Store};
use crate::table::TransactionId;
use std::fmt;

/// A call that writes to the files, store by store. A store is a whole record appended, a whole page written, a clog change, or a truncation of the log.
#[derive(Clone, Debug, PartialEq, Eq)]
pub enum Call {
    Begin(TransactionId),
    Flush(u32),
    Commit,
    /// With the list of catalog pages.
    Rollback(Vec<u32>),
    Advance(TransactionId),
}

#[derive(Clone, Copy, Debug, PartialEq, Eq)]
pub enum Kind {
    Append,
    Page,
    Clog,
    Truncation,
}

/// What a store does: in which way, from which byte on, over how many bytes. An append and a truncation are the log's, a page is the database's.
#[derive(Clone, Copy, Debug, PartialEq, Eq)]
pub struct Telling {
    pub kind: Kind,
    pub offset: usize,
    pub length: usize,
}

impl Telling {
    fn of(values: [u64; 4]) -> Option<Telling> {
        let kind = match values[0] {
            1 => Kind::Append,
            2 => Kind::Page,
            3 => Kind::Clog,
            4 => Kind::Truncation,
            _ => return None,
        };
        Some(Telling { kind, offset: size(values[1]), length: size(values[2]) })
    }
}

/// `append`, `page`, `clog` or `trunc`, offset, length, as in a transcript.
impl fmt::Display for Telling {
    fn fmt(&self, f: &mut fmt::Formatter<'_>) -> fmt::Result {
        let kind = match self.kind {
            Kind::Append => "append",
            Kind::Page => "page",
            Kind::Clog => "clog",
            Kind::Truncation => "trunc",
        };
        write!(f, "{kind} {} {}", self.offset, self.length)
    }
}

// The store's part of a call's arguments.
macro_rules! lent {
    ($call:ident, $w:expr, $($args:expr),*) => {
        port::$call(&$w.head, &$w.rows, &$w.resident, &$w.touched, $($args),*)
    };
}

impl Store {
    /// The call is made whole.
    pub fn call(&mut self, files: &mut Files, call: &Call) -> Result<(), Refusal> {
        match call {
            Call::Begin(id) => self.begin(files, *id),
            Call::Flush(page) => self.flush(files, *page),
            Call::Commit => self.commit(files),
            Call::Rollback(catalog) => self.rollback(files, catalog),
            Call::Advance(mark) => self.advance(files, *mark),
        }
    }

    /// How many stores the call has. Nothing is changed.
    ///
    /// ```
    /// use nyotmelang::{Call, Files, Sizes, Store, TransactionId};
    /// # fn main() -> Result<(), nyotmelang::Refusal> {
    /// let mut files = Files::new(Sizes { log: 16384, db: 16384, clog: 64, frames: 8192 });
    /// let mut store = Store::open(&mut files)?;
    /// assert_eq!(store.count(&files, &Call::Begin(TransactionId(1)))?, 2);
    /// assert_eq!(store.count(&files, &Call::Commit)?, 0); // no transaction is installed
    /// # Ok(())
    /// # }
    /// ```
    pub fn count(&self, files: &Files, call: &Call) -> Result<usize, Refusal> {
        let (w, (log, db, clog), frames) = (self.words(), read_only(files), files.frames());
        let mut values = [0; 4];
        Refusal::check(match call {
            Call::Begin(id) => lent!(nyotmelang_pager_begin_count, w, id.0, log, db, clog, frames, &mut values),
            Call::Flush(page) => lent!(nyotmelang_pager_flush_count, w, *page, log, db, clog, frames, &mut values),
            Call::Commit => lent!(nyotmelang_pager_commit_count, w, log, db, clog, frames, &mut values),
            Call::Rollback(list) => lent!(nyotmelang_pager_rollback_count, w, list, log, db, clog, frames, &mut values),
            Call::Advance(mark) => lent!(nyotmelang_pager_advance_count, w, mark.0, log, db, clog, frames, &mut values),
        })?;
        Ok(size(values[0]))
    }

    /// What the k-th store of the call does, from 1 on; none for 0 and past the last. Nothing is changed.
    ///
    /// ```
    /// use nyotmelang::{Call, Files, Kind, Sizes, Store, Telling, TransactionId};
    /// # fn main() -> Result<(), nyotmelang::Refusal> {
    /// let mut files = Files::new(Sizes { log: 16384, db: 16384, clog: 64, frames: 8192 });
    /// let mut store = Store::open(&mut files)?;
    /// let begin = Call::Begin(TransactionId(1));
    /// assert_eq!(store.told(&files, &begin, 1)?, Some(Telling { kind: Kind::Append, offset: 8, length: 9 }));
    /// assert_eq!(store.told(&files, &begin, 3)?, None);
    /// # Ok(())
    /// # }
    /// ```
    pub fn told(&self, files: &Files, call: &Call, k: usize) -> Result<Option<Telling>, Refusal> {
        let (w, (log, db, clog), frames) = (self.words(), read_only(files), files.frames());
        let mut values = [0; 4];
        Refusal::check(match call {
            Call::Begin(id) => lent!(nyotmelang_pager_begin_told, w, id.0, k, log, db, clog, frames, &mut values),
            Call::Flush(page) => lent!(nyotmelang_pager_flush_told, w, *page, k, log, db, clog, frames, &mut values),
            Call::Commit => lent!(nyotmelang_pager_commit_told, w, k, log, db, clog, frames, &mut values),
            Call::Rollback(list) => lent!(nyotmelang_pager_rollback_told, w, list, k, log, db, clog, frames, &mut values),
            Call::Advance(mark) => lent!(nyotmelang_pager_advance_told, w, mark.0, k, log, db, clog, frames, &mut values),
        })?;
        Ok(Telling::of(values))
    }

    /// The call is carried out to its k-th store, as if power went there: the files are left so, and the store is gone. A refused call changes nothing and gives the
    /// store back.
    ///
    /// ```
    /// use nyotmelang::{Call, File, Files, Sizes, Store, TransactionId};
    /// # fn main() -> Result<(), nyotmelang::Refusal> {
    /// let mut files = Files::new(Sizes { log: 16384, db: 16384, clog: 64, frames: 8192 });
    /// let store = Store::open(&mut files)?;
    /// store.cut(&mut files, &Call::Begin(TransactionId(1)), 1).map_err(|(refusal, _store)| refusal)?;
    /// assert_eq!((files.len(File::Log), files.len(File::Clog)), (17, 8)); // the record is there, the slot is not
    /// # Ok(())
    /// # }
    /// ```
    pub fn cut(self, files: &mut Files, call: &Call, k: usize) -> Result<(), (Refusal, Store)> {
        let (w, l, mut values) = (self.words(), files.lend(), [0; 4]);
        let (log, db, clog, frames) = (l.log, l.db, l.clog, &*l.frames);
        let number = match call {
            Call::Begin(id) => lent!(nyotmelang_pager_begin_to, w, id.0, k, log, db, clog, frames, &mut values),
            Call::Flush(page) => lent!(nyotmelang_pager_flush_to, w, *page, k, log, db, clog, frames, &mut values),
            Call::Commit => lent!(nyotmelang_pager_commit_to, w, k, log, db, clog, frames, &mut values),
            Call::Rollback(list) => lent!(nyotmelang_pager_rollback_to, w, list, k, log, db, clog, frames, &mut values),
            Call::Advance(mark) => lent!(nyotmelang_pager_advance_to, w, mark.0, k, log, db, clog, frames, &mut values),
        };
        if let Err(refusal) = Refusal::check(number) {
            return Err((refusal, self));
        }
        let [log, db, clog, _] = values.map(size);
        files.set_lengths(Lengths { log, db, clog });
        Ok(())
    }
}
