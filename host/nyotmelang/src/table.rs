//! Ids, times, and the entries of the status table.
use std::fmt;

/// An entry as it stands in a store: id, tag and time. The tag is 0 for Active, 1 for Committed, 2 for Aborted; the time is 0 where it is not Committed.
pub type Row = [u64; 3];

/// A table has at most this many entries.
pub const TABLE_LIMIT: usize = 256;

/// The number of a transaction. It is never a time.
///
/// ```compile_fail,E0308
/// use nyotmelang::{CommitTime, TransactionId};
/// let id: TransactionId = CommitTime(5);
/// ```
#[derive(Clone, Copy, Debug, PartialEq, Eq, PartialOrd, Ord, Hash)]
pub struct TransactionId(pub u64);

/// When a transaction was committed, as a count of commits.
#[derive(Clone, Copy, Debug, PartialEq, Eq, PartialOrd, Ord, Hash)]
pub struct CommitTime(pub u64);

#[derive(Clone, Copy, Debug, PartialEq, Eq, Hash)]
pub enum Status {
    Active,
    Committed(CommitTime),
    Aborted,
}

impl Status {
    // Tag and time as they stand in a row; the time is 0 where nothing is committed.
    pub(crate) fn tagged(self) -> (u64, u64) {
        match self {
            Status::Active => (0, 0),
            Status::Committed(time) => (1, time.0),
            Status::Aborted => (2, 0),
        }
    }
}

#[derive(Clone, Copy, Debug, PartialEq, Eq, Hash)]
pub struct Entry {
    pub id: TransactionId,
    pub status: Status,
}

impl Entry {
    // The library writes no tag above 2; such a tag in a poked row is shown as Aborted, and the library answers the store with 14.
    pub(crate) fn of(row: Row) -> Entry {
        let [id, tag, time] = row;
        let status = match tag {
            0 => Status::Active,
            1 => Status::Committed(CommitTime(time)),
            _ => Status::Aborted,
        };
        Entry { id: TransactionId(id), status }
    }

    pub(crate) fn row(self) -> Row {
        let (tag, time) = self.status.tagged();
        [self.id.0, tag, time]
    }

    // The first so many rows.
    pub(crate) fn all(rows: &[Row], count: usize) -> Vec<Entry> {
        rows.iter().take(count).copied().map(Entry::of).collect()
    }
}

/// `ID:I` for Active, `ID:C:TIME`, `ID:A`, as in a transcript.
impl fmt::Display for Entry {
    fn fmt(&self, f: &mut fmt::Formatter<'_>) -> fmt::Result {
        let id = self.id.0;
        match self.status {
            Status::Active => write!(f, "{id}:I"),
            Status::Committed(time) => write!(f, "{id}:C:{}", time.0),
            Status::Aborted => write!(f, "{id}:A"),
        }
    }
}
