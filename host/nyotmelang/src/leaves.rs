//! Log, clog, status pages and meta page by themselves, with no store.
use crate::bytes::size;
use crate::files::{File, Files, Page, PAGE_BYTES};
use crate::port;
use crate::refusal::Refusal;
use crate::table::{CommitTime, Entry, Status, TransactionId, TABLE_LIMIT};

/// A log record. The bytes of an image that is read are that part of the log, not a copy.
#[derive(Clone, Copy, Debug, PartialEq, Eq)]
pub enum Record<'a> {
    Image { page: u32, bytes: &'a Page },
    Begin(TransactionId),
    Commit(TransactionId, CommitTime),
    Abort(TransactionId),
    Checkpoint,
}

/// A record and the place after it.
#[derive(Clone, Copy, Debug, PartialEq, Eq)]
pub struct Found<'a> {
    pub record: Record<'a>,
    pub next: usize,
}

/// Why no record was read, and how many bytes a torn one lacks (0 where it is not torn).
#[derive(Clone, Copy, Debug, PartialEq, Eq)]
pub struct Unread {
    pub refusal: Refusal,
    pub missing: usize,
}

/// The counters of page 0.
#[derive(Clone, Copy, Debug, PartialEq, Eq)]
pub struct Counters {
    pub next: TransactionId,
    pub time: CommitTime,
    pub mark: TransactionId,
}

// ---- the log

impl Files<'_> {
    /// The place of the first record: 8 after the magic, or the length where the log has no record to read.
    pub fn log_start(&self) -> usize {
        port::nyotmelang_log_start(self.buffer(File::Log), self.len(File::Log))
    }

    /// The record at a place; none at the end of the log.
    ///
    /// ```
    /// use nyotmelang::{File, Files, Record, Sizes, TransactionId};
    /// let mut files = Files::new(Sizes { log: 64, db: 0, clog: 0, frames: 0 });
    /// files.append(File::Log, b"AEROWAL2\x02\x05\0\0\0\0\0\0\0\x05");
    /// let first = files.read_record(files.log_start()).unwrap().unwrap();
    /// assert_eq!(first.record, Record::Begin(TransactionId(5)));
    /// let second = files.read_record(first.next).unwrap().unwrap();
    /// assert_eq!((second.record, second.next), (Record::Checkpoint, 18));
    /// assert_eq!(files.read_record(18), Ok(None));
    /// ```
    pub fn read_record(&self, place: usize) -> Result<Option<Found<'_>>, Unread> {
        let (log, mut values) = (self.buffer(File::Log), [0; 4]);
        let number = port::nyotmelang_log_read(log, self.len(File::Log), place, &mut values);
        if let Err(refusal) = Refusal::check(number) {
            return Err(Unread { refusal, missing: size(values[0]) });
        }
        let [tag, a, b, c] = values;
        let (record, next) = match tag {
            1 => (Record::Image { page: a as u32, bytes: page_at(log, size(b)) }, c),
            2 => (Record::Begin(TransactionId(a)), b),
            3 => (Record::Commit(TransactionId(a), CommitTime(b)), c),
            4 => (Record::Abort(TransactionId(a)), b),
            5 => (Record::Checkpoint, a),
            _ => return Ok(None),
        };
        Ok(Some(Found { record, next: size(next) }))
    }

    /// A record is appended to the log.
    ///
    /// ```
    /// use nyotmelang::{File, Files, Record, Refusal, Sizes, TransactionId};
    /// let mut files = Files::new(Sizes { log: 20, db: 0, clog: 0, frames: 0 });
    /// files.truncate_log().unwrap();
    /// files.append_record(&Record::Begin(TransactionId(5))).unwrap();
    /// assert_eq!(files.content(File::Log), b"AEROWAL2\x02\x05\0\0\0\0\0\0\0");
    /// assert_eq!(files.append_record(&Record::Abort(TransactionId(5))), Err(Refusal::LogFull));
    /// ```
    pub fn append_record(&mut self, record: &Record) -> Result<(), Refusal> {
        self.changed(File::Log, |log, len, values| match record {
            Record::Image { page, bytes } => port::nyotmelang_log_append_page(log, len, *page, bytes, values),
            Record::Begin(id) => port::nyotmelang_log_append_begin(log, len, id.0, values),
            Record::Commit(id, time) => port::nyotmelang_log_append_commit(log, len, id.0, time.0, values),
            Record::Abort(id) => port::nyotmelang_log_append_abort(log, len, id.0, values),
            Record::Checkpoint => port::nyotmelang_log_append_checkpoint(log, len, values),
        })
        .map(|_| ())
    }

    /// The log becomes its magic alone.
    pub fn truncate_log(&mut self) -> Result<(), Refusal> {
        self.changed(File::Log, port::nyotmelang_log_truncate).map(|_| ())
    }

    // A leaf call on one file; where it is accepted the first value is the file's new length.
    fn changed(
        &mut self,
        file: File,
        call: impl FnOnce(&mut [u8], usize, &mut [u64; 4]) -> u8,
    ) -> Result<[u64; 4], Refusal> {
        let (len, mut values) = (self.len(file), [0; 4]);
        Refusal::check(call(self.buffer_mut(file), len, &mut values))?;
        self.set_len(file, size(values[0]));
        Ok(values)
    }
}

// The library answers an image only where all its bytes stand inside the log.
fn page_at(log: &[u8], at: usize) -> &Page {
    log[at..at + PAGE_BYTES].try_into().expect("a page")
}

// ---- the clog

impl Files<'_> {
    /// A clog that is too short or has another magic is reset; any other stays.
    pub fn open_clog(&mut self) -> Result<(), Refusal> {
        self.changed(File::Clog, port::nyotmelang_clog_open).map(|_| ())
    }

    pub fn reset_clog(&mut self) -> Result<(), Refusal> {
        self.changed(File::Clog, port::nyotmelang_clog_reset).map(|_| ())
    }

    /// The status of an id is recorded; the time is not kept in the clog.
    ///
    /// ```
    /// use nyotmelang::{CommitTime, File, Files, Sizes, Status, TransactionId};
    /// let mut files = Files::new(Sizes { log: 0, db: 0, clog: 64, frames: 0 });
    /// files.reset_clog().unwrap();
    /// files.record_status(TransactionId(5), Status::Committed(CommitTime(9))).unwrap();
    /// assert_eq!(files.content(File::Clog), b"AEROCLG1\x00\x08");
    /// let entries = files.load_clog().unwrap();
    /// assert_eq!((entries.len(), entries[0].status), (1, Status::Committed(CommitTime(0))));
    /// ```
    pub fn record_status(&mut self, id: TransactionId, status: Status) -> Result<(), Refusal> {
        let (tag, time) = status.tagged();
        self.changed(File::Clog, |clog, len, values| port::nyotmelang_clog_record(clog, len, id.0, tag, time, values)).map(|_| ())
    }

    /// The statuses of all ids below this one are forgotten.
    pub fn compact_clog(&mut self, below: TransactionId) -> Result<(), Refusal> {
        self.changed(File::Clog, |clog, len, values| port::nyotmelang_clog_compact(clog, len, below.0, values)).map(|_| ())
    }

    /// Every status in the clog; Active becomes Aborted, in the clog too.
    pub fn load_clog(&mut self) -> Result<Vec<Entry>, Refusal> {
        let mut rows = [[0; 3]; TABLE_LIMIT];
        let values = self.changed(File::Clog, |clog, len, values| port::nyotmelang_clog_load(clog, len, &mut rows, values))?;
        Ok(Entry::all(&rows, size(values[1])))
    }
}

// ---- status pages

/// A status page, as PostgreSQL keeps them in its folder `pg_xact`, has this many bytes.
pub const STATUS_PAGE_BYTES: usize = 8192;

impl Files<'_> {
    /// The clog written out under a mark as status pages, over the front of `out`; the answer is their length. Ids below the mark go out as committed.
    ///
    /// ```
    /// use nyotmelang::{read_status_pages, CommitTime, File, Files, Refusal, Sizes, Status, TransactionId};
    /// let mut files = Files::new(Sizes { log: 0, db: 0, clog: 64, frames: 0 });
    /// files.reset_clog().unwrap();
    /// files.record_status(TransactionId(5), Status::Committed(CommitTime(9))).unwrap();
    /// files.record_status(TransactionId(6), Status::Aborted).unwrap();
    /// let (mut pages, mut body) = ([0xEE; 8192], [0xEE; 8192]);
    /// assert_eq!(files.write_status_pages(TransactionId(5), &mut pages), Ok(8192));
    /// assert_eq!(pages[..3], [0x55, 0x25, 0]); // ids 0 to 4 below the mark and 5: committed, 6: aborted
    /// assert_eq!(read_status_pages(&pages, &mut body), Ok(8192));
    /// assert_eq!(body[..3], [0xAA, 0x3A, 0]);
    /// assert_eq!(files.write_status_pages(TransactionId(5), &mut pages[1..]), Err(Refusal::SliceShort));
    /// ```
    pub fn write_status_pages(&self, mark: TransactionId, out: &mut [u8]) -> Result<usize, Refusal> {
        let (clog, mut values) = (self.buffer(File::Clog), [0; 4]);
        Refusal::check(port::nyotmelang_clog_write_pages(clog, self.len(File::Clog), mark.0, out, &mut values))?;
        Ok(size(values[0]))
    }
}

/// Status pages read as a clog's body, without its magic, over the front of `out`; the answer is its length, which is the pages'.
pub fn read_status_pages(pages: &[u8], out: &mut [u8]) -> Result<usize, Refusal> {
    let mut values = [0; 4];
    Refusal::check(port::nyotmelang_clog_read_pages(pages, out, &mut values))?;
    Ok(size(values[0]))
}

// ---- page 0

impl Files<'_> {
    /// Refused by [`Refusal::BadVersion`] where a meta page of another version than 0 or 2 stands.
    pub fn check_format(&self) -> Result<(), Refusal> {
        Refusal::check(port::nyotmelang_meta_format(self.buffer(File::Database), self.len(File::Database)))
    }

    /// The counters of page 0; all are 0 where no meta page stands.
    ///
    /// ```
    /// use nyotmelang::{put_meta, CommitTime, Counters, File, Files, Sizes, TransactionId};
    /// let counters = Counters { next: TransactionId(6), time: CommitTime(2), mark: TransactionId(1) };
    /// let mut page = [0xEE; 4096];
    /// put_meta(&mut page, 0, counters);
    /// let mut files = Files::new(Sizes { log: 0, db: 4096, clog: 0, frames: 0 });
    /// files.append(File::Database, &page);
    /// assert_eq!(files.read_meta(), Ok(Some(counters)));
    /// ```
    pub fn read_meta(&self) -> Result<Option<Counters>, Refusal> {
        let mut values = [0; 4];
        Refusal::check(port::nyotmelang_meta_read(self.buffer(File::Database), self.len(File::Database), &mut values))?;
        let [next, time, mark, there] = values;
        let counters = Counters { next: TransactionId(next), time: CommitTime(time), mark: TransactionId(mark) };
        Ok((there != 0).then_some(counters))
    }
}

/// A meta page is put into the bytes from a place on; what does not fit is dropped.
pub fn put_meta(bytes: &mut [u8], at: usize, counters: Counters) {
    port::nyotmelang_meta_put(bytes, at, counters.next.0, counters.time.0, counters.mark.0);
}
