//! The second form of a clog, which leaves out the statuses below a base id: a clog moved there and back, and a file of that form worked in.
//!
//! A store opens the old form only. An opening that is given the second form finds another magic, RESETS the clog and answers that all is well: its statuses
//! are gone. Move such a file back before a store is opened, and never put it where a store's clog is looked for.
use crate::bytes::size;
use crate::files::{File, Files};
use crate::output::Output;
use crate::port;
use crate::refusal::Refusal;
use crate::table::{Entry, Status, TransactionId, TABLE_LIMIT};

impl Files<'_> {
    /// The clog, moved to the second form under a mark, goes over the front of an output; its length there is the answer.
    ///
    /// ```
    /// use nyotmelang::{File, Files, Output, Sizes, TransactionId};
    /// let mut files = Files::new(Sizes { log: 0, db: 0, clog: 64, frames: 0 });
    /// files.append(File::Clog, b"AEROCLG1\x00\x00\x38");
    /// let (mut second, mut first) = (Output::filled(64, 0), Output::filled(64, 0));
    /// assert_eq!(files.clog_to_second(TransactionId(9), &mut second), Ok(14));
    /// assert_eq!(second.content(), b"\0\0\0\x0A\x02\0\0\0\0\0\0\0\x08\x38");
    /// assert_eq!(second.to_first(&mut first), Ok(11));
    /// assert_eq!(first.content(), files.content(File::Clog));
    /// ```
    pub fn clog_to_second(&self, mark: TransactionId, out: &mut Output) -> Result<usize, Refusal> {
        let (clog, len) = (self.buffer(File::Clog), self.len(File::Clog));
        out.changed(|out, _, values| port::nyotmelang_clog_to_second(clog, len, mark.0, out, values)).map(|values| size(values[0]))
    }
}

/// A file of the second form.
impl Output {
    /// The old form of it goes over the front of another output; its length there is the answer.
    pub fn to_first(&self, out: &mut Output) -> Result<usize, Refusal> {
        let (second, len) = (self.buffer(), self.len());
        out.changed(|out, _, values| port::nyotmelang_clog_to_first(second, len, out, values)).map(|values| size(values[0]))
    }

    /// The status of an id is recorded; the time is not kept.
    ///
    /// ```
    /// use nyotmelang::{Output, Refusal, Status, TransactionId};
    /// let mut second = Output::filled(14, 0);
    /// second.append(b"\0\0\0\x09\x02\0\0\0\0\0\0\0\x08");
    /// assert_eq!(second.record_status(TransactionId(7), Status::Aborted), Err(Refusal::IdBelowBase));
    /// assert_eq!(second.record_status(TransactionId(9), Status::Aborted), Ok(()));
    /// assert_eq!(second.content(), b"\0\0\0\x0A\x02\0\0\0\0\0\0\0\x08\x0C");
    /// ```
    pub fn record_status(&mut self, id: TransactionId, status: Status) -> Result<(), Refusal> {
        let (tag, time) = status.tagged();
        self.changed(|second, len, values| port::nyotmelang_second_record(second, len, id.0, tag, time, values)).map(|_| ())
    }

    /// The statuses of all ids below this one are forgotten; base and length stay.
    pub fn compact(&mut self, below: TransactionId) -> Result<(), Refusal> {
        self.changed(|second, len, values| port::nyotmelang_second_compact(second, len, below.0, values)).map(|_| ())
    }

    /// Every status in the file; Active becomes Aborted, in the file too.
    pub fn load(&mut self) -> Result<Vec<Entry>, Refusal> {
        let mut rows = [[0; 3]; TABLE_LIMIT];
        let values = self.changed(|second, len, values| port::nyotmelang_second_load(second, len, &mut rows, values))?;
        Ok(Entry::all(&rows, size(values[1])))
    }
}
