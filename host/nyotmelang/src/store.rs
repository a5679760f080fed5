//! An open store and its calls.
use crate::bytes::size;
use crate::files::{File, Files, Lengths, Page, PAGE_BYTES};
use crate::port;
use crate::refusal::Refusal;
use crate::table::{CommitTime, Entry, Row, TransactionId, TABLE_LIMIT};
use crate::transaction::{Transaction, TOUCHED_LIMIT};

/// The most frames that a store has, whatever the frame buffer's size.
pub const FRAMES_LIMIT: usize = 64;

/// What a store remembers, as it stands in memory: `struct nyotmelang_store` of the header for C. Any words are answered by the library, by 14 where no store has
/// them.
#[repr(C)]
#[derive(Clone, Debug, PartialEq, Eq)]
pub struct Words {
    /// The lengths of log, database and clog, page count, next id, next commit time, frozen mark, 1 where a transaction is installed and else 0, its id, how many
    /// entries, resident pages and touched pages there are.
    pub head: [u64; 12],
    pub rows: [Row; TABLE_LIMIT],
    /// The page at place i stands in the frame buffer from byte 4096 i on.
    pub resident: [u32; FRAMES_LIMIT],
    /// 64-bit numbers, so that they are not taken for resident pages.
    pub touched: [u64; TOUCHED_LIMIT],
}

// Which word of the head is what.
const PAGES: usize = 3;
const NEXT: usize = 4;
const TIME: usize = 5;
const MARK: usize = 6;
const HELD: usize = 7;
const ID: usize = 8;
const ENTRIES: usize = 9;
const RESIDENT: usize = 10;
const TOUCHED: usize = 11;

/// What a store remembers beside its files. Every call takes the files that it was opened with. The library trusts none of it: a store whose words were changed, or
/// files that do not belong to it, are refused or worked on as they are, never outside the buffers.
///
/// ```
/// use nyotmelang::{Files, Refusal, Sizes, Store, TransactionId};
/// # fn main() -> Result<(), Refusal> {
/// let mut files = Files::new(Sizes { log: 16384, db: 16384, clog: 64, frames: 8192 });
/// let mut store = Store::open(&mut files)?;
/// let id = store.allocate_id(&files)?;
/// store.begin(&mut files, id)?;
/// store.write_page(&mut files, 3, &[7; 4096])?;
/// store.flush(&mut files, 3)?;
/// store.commit(&mut files)?;
///
/// // The key is turned off and on.
/// let mut store = Store::open(&mut files)?;
/// assert_eq!(store.read_page(&mut files, 3)?, [7; 4096]);
/// assert_eq!(store.next_id(), TransactionId(2));
/// # Ok(())
/// # }
/// ```
#[derive(Clone, Debug, PartialEq, Eq)]
pub struct Store {
    words: Box<Words>,
}

// The store's part of a call's arguments.
macro_rules! lent {
    ($call:ident, $w:expr, $($args:expr),*) => {{
        let w = &mut *$w;
        port::$call(&mut w.head, &mut w.rows, &mut w.resident, &mut w.touched, $($args),*)
    }};
}

// ---- opening, and what a store tells

impl Store {
    /// Opens the files: log records are carried over into the database, the clog and the table, and the log is cut to its header.
    /// Refused by [`Refusal::Torn`] or [`Refusal::UnknownTag`] it leaves the database with the images before the bad record, and its new length.
    pub fn open(files: &mut Files) -> Result<Store, Refusal> {
        let words = Words { head: [0; 12], rows: [[0; 3]; TABLE_LIMIT], resident: [0; FRAMES_LIMIT], touched: [0; TOUCHED_LIMIT] };
        let mut store = Store { words: Box::new(words) };
        store.reopen(files)?;
        Ok(store)
    }

    /// Opens the files in the place of what the store held. A refused opening leaves the store as it was.
    pub fn reopen(&mut self, files: &mut Files) -> Result<(), Refusal> {
        let (n, l, mut told) = (files.lengths(), files.lend(), 0);
        let number =
            lent!(nyotmelang_pager_open, self.words, n.log, n.db, n.clog, l.log, l.db, l.clog, l.frames, &mut told);
        let opened = Refusal::check(number);
        match opened {
            Ok(()) => files.set_lengths(self.lengths()),
            Err(Refusal::Torn | Refusal::UnknownTag) => files.set_len(File::Database, told),
            Err(_) => {}
        }
        opened
    }

    /// A store from words that were kept before.
    pub fn from_words(words: Words) -> Store {
        Store { words: Box::new(words) }
    }

    pub fn words(&self) -> &Words {
        &self.words
    }

    pub fn words_mut(&mut self) -> &mut Words {
        &mut self.words
    }

    pub fn lengths(&self) -> Lengths {
        let [log, db, clog, ..] = self.words.head.map(size);
        Lengths { log, db, clog }
    }

    /// How many pages the store counts, resident ones past the file's end too.
    pub fn pages(&self) -> u64 {
        self.words.head[PAGES]
    }

    pub fn next_id(&self) -> TransactionId {
        TransactionId(self.words.head[NEXT])
    }

    pub fn next_time(&self) -> CommitTime {
        CommitTime(self.words.head[TIME])
    }

    pub fn mark(&self) -> TransactionId {
        TransactionId(self.words.head[MARK])
    }

    /// How many entries the table says it has.
    pub fn entry_count(&self) -> u64 {
        self.words.head[ENTRIES]
    }

    pub fn entries(&self) -> Vec<Entry> {
        Entry::all(&self.words.rows, size(self.entry_count()))
    }

    /// How many pages it says are resident.
    pub fn resident_count(&self) -> u64 {
        self.words.head[RESIDENT]
    }

    /// The numbers of the resident pages, by frame.
    pub fn resident(&self) -> &[u32] {
        &self.words.resident[..size(self.resident_count()).min(FRAMES_LIMIT)]
    }

    /// The id of the transaction that is installed.
    pub fn held(&self) -> Option<TransactionId> {
        (self.words.head[HELD] != 0).then_some(TransactionId(self.words.head[ID]))
    }

    /// How many pages it says are touched.
    pub fn touched_count(&self) -> u64 {
        self.words.head[TOUCHED]
    }

    /// The pages that the installed transaction has touched.
    pub fn touched(&self) -> Vec<u32> {
        let count = size(self.touched_count()).min(TOUCHED_LIMIT);
        self.words.touched[..count].iter().map(|page| *page as u32).collect()
    }

    /// The transaction that is installed.
    pub fn transaction(&self) -> Option<Transaction> {
        self.held().map(|id| Transaction::new(id, &self.touched()))
    }
}

// ---- the calls

impl Store {
    // After a call that was accepted the files have the lengths that the store tells.
    fn settled(&self, number: u8, files: &mut Files) -> Result<(), Refusal> {
        Refusal::check(number)?;
        files.set_lengths(self.lengths());
        Ok(())
    }

    /// Begins a transaction and installs it, in the place of any other.
    pub fn begin(&mut self, files: &mut Files, id: TransactionId) -> Result<(), Refusal> {
        let l = files.lend();
        let number = lent!(nyotmelang_pager_begin, self.words, id.0, l.log, l.db, l.clog, l.frames);
        self.settled(number, files)
    }

    /// Inside a transaction the page is marked as touched; outside it is logged and written, where it is resident.
    pub fn flush(&mut self, files: &mut Files, page: u32) -> Result<(), Refusal> {
        let l = files.lend();
        let number = lent!(nyotmelang_pager_flush, self.words, page, l.log, l.db, l.clog, l.frames);
        self.settled(number, files)
    }

    /// Commits the installed transaction; with none it is accepted and does nothing.
    pub fn commit(&mut self, files: &mut Files) -> Result<(), Refusal> {
        let l = files.lend();
        let number = lent!(nyotmelang_pager_commit, self.words, l.log, l.db, l.clog, l.frames);
        self.settled(number, files)
    }

    /// Rolls the installed transaction back. Pages 1, 2 and those of the list get the file's bytes back.
    pub fn rollback(&mut self, files: &mut Files, catalog: &[u32]) -> Result<(), Refusal> {
        let l = files.lend();
        let number = lent!(nyotmelang_pager_rollback, self.words, catalog, l.log, l.db, l.clog, l.frames);
        self.settled(number, files)
    }

    /// Advances the frozen mark, where it is above the old one.
    pub fn advance(&mut self, files: &mut Files, mark: TransactionId) -> Result<(), Refusal> {
        let l = files.lend();
        let number = lent!(nyotmelang_pager_advance, self.words, mark.0, l.log, l.db, l.clog, l.frames);
        self.settled(number, files)
    }

    pub fn write_page(&mut self, files: &mut Files, page: u32, bytes: &Page) -> Result<(), Refusal> {
        let l = files.lend();
        let number = lent!(nyotmelang_pager_write_page, self.words, page, bytes, l.log, l.db, l.clog, l.frames);
        self.settled(number, files)
    }

    pub fn read_page(&mut self, files: &mut Files, page: u32) -> Result<Page, Refusal> {
        let mut out = [0; PAGE_BYTES];
        self.read_page_into(files, page, &mut out)?;
        Ok(out)
    }

    /// Reads a page into bytes that the caller has. A refusal leaves them as they are.
    pub fn read_page_into(&mut self, files: &mut Files, page: u32, out: &mut Page) -> Result<(), Refusal> {
        let l = files.lend();
        let number = lent!(nyotmelang_pager_read_page, self.words, page, out, l.log, l.db, l.clog, l.frames);
        self.settled(number, files)
    }

    /// Installs a transaction. Where it is refused the transaction comes back.
    pub fn install(&mut self, files: &Files, transaction: Transaction) -> Result<(), (Refusal, Transaction)> {
        let (log, db, clog) = read_only(files);
        let (id, pages) = (transaction.id().0, transaction.touched());
        let number = lent!(nyotmelang_pager_install, self.words, id, pages, log, db, clog, files.frames());
        Refusal::check(number).map_err(|refusal| (refusal, transaction))
    }

    /// Hands the installed transaction out.
    pub fn uninstall(&mut self, files: &Files) -> Result<Option<Transaction>, Refusal> {
        let (log, db, clog) = read_only(files);
        let (mut out, mut values) = ([0; TOUCHED_LIMIT], [0; 4]);
        let number =
            lent!(nyotmelang_pager_uninstall, self.words, &mut out, log, db, clog, files.frames(), &mut values);
        Refusal::check(number)?;
        let [held, id, count, _] = values;
        Ok((held != 0).then(|| Transaction::new(TransactionId(id), &out[..size(count)])))
    }

    pub fn allocate_id(&mut self, files: &Files) -> Result<TransactionId, Refusal> {
        let (log, db, clog) = read_only(files);
        let mut id = 0;
        let number = lent!(nyotmelang_pager_allocate_id, self.words, log, db, clog, files.frames(), &mut id);
        Refusal::check(number)?;
        Ok(TransactionId(id))
    }

    pub fn allocate_page(&mut self, files: &Files) -> Result<u32, Refusal> {
        let (log, db, clog) = read_only(files);
        let mut page = 0;
        let number = lent!(nyotmelang_pager_allocate_page, self.words, log, db, clog, files.frames(), &mut page);
        Refusal::check(number)?;
        Ok(page)
    }

    /// The whole table, ascending by id.
    pub fn table(&self, files: &Files) -> Result<Vec<Entry>, Refusal> {
        self.table_within(files, TABLE_LIMIT)
    }

    /// The whole table, handed out into room for so many entries; refused by [`Refusal::SliceShort`] where it has more. Room past the table's limit is never used.
    pub fn table_within(&self, files: &Files, room: usize) -> Result<Vec<Entry>, Refusal> {
        let (w, (log, db, clog)) = (&*self.words, read_only(files));
        let (mut out, mut count) = (vec![[0; 3]; room.min(TABLE_LIMIT)], 0);
        Refusal::check(port::nyotmelang_pager_table(
            &w.head, &w.rows, &w.resident, &w.touched, &mut out, log, db, clog, files.frames(), &mut count,
        ))?;
        Ok(Entry::all(&out, count))
    }

    /// How many entries the table has, asked of the library, which tests the store first.
    pub fn count_entries(&self, files: &Files) -> Result<usize, Refusal> {
        let (w, (log, db, clog)) = (&*self.words, read_only(files));
        let mut count = 0;
        Refusal::check(port::nyotmelang_pager_entry_count(
            &w.head, &w.rows, &w.resident, &w.touched, log, db, clog, files.frames(), &mut count,
        ))?;
        Ok(count)
    }

    /// The entry at a place in the table; none past its last.
    pub fn entry(&self, files: &Files, place: usize) -> Result<Option<Entry>, Refusal> {
        let (w, (log, db, clog)) = (&*self.words, read_only(files));
        let mut values = [0; 4];
        Refusal::check(port::nyotmelang_pager_entry(
            &w.head, &w.rows, &w.resident, &w.touched, place, log, db, clog, files.frames(), &mut values,
        ))?;
        let [there, id, tag, time] = values;
        Ok((there != 0).then(|| Entry::of([id, tag, time])))
    }
}

pub(crate) fn read_only<'f>(files: &'f Files) -> (&'f [u8], &'f [u8], &'f [u8]) {
    (files.buffer(File::Log), files.buffer(File::Database), files.buffer(File::Clog))
}

// ---- values put into a store by hand, in form or not: the library answers what comes of it

impl Store {
    pub fn put_lengths(&mut self, lengths: Lengths) {
        self.words.head[..3].copy_from_slice(&[lengths.log, lengths.db, lengths.clog].map(|len| len as u64));
    }

    pub fn put_pages(&mut self, pages: u32) {
        self.words.head[PAGES] = pages.into();
    }

    pub fn put_next_id(&mut self, id: TransactionId) {
        self.words.head[NEXT] = id.0;
    }

    pub fn put_next_time(&mut self, time: CommitTime) {
        self.words.head[TIME] = time.0;
    }

    pub fn put_mark(&mut self, mark: TransactionId) {
        self.words.head[MARK] = mark.0;
    }

    /// Entries past the 256th place are told by the count alone.
    pub fn put_entries(&mut self, entries: &[Entry]) {
        self.words.head[ENTRIES] = entries.len() as u64;
        for (row, entry) in self.words.rows.iter_mut().zip(entries) {
            *row = entry.row();
        }
    }

    /// Pages past the 64th place are told by the count alone.
    pub fn put_resident(&mut self, pages: &[u32]) {
        self.words.head[RESIDENT] = pages.len() as u64;
        for (place, page) in self.words.resident.iter_mut().zip(pages) {
            *place = *page;
        }
    }

    /// Places of touched pages past the count stay as they are; pages past the 64th place are told by the count alone.
    pub fn put_transaction(&mut self, transaction: Option<&Transaction>) {
        let touched = transaction.map(Transaction::touched).unwrap_or_default();
        self.words.head[HELD] = transaction.is_some().into();
        self.words.head[ID] = transaction.map_or(0, |t| t.id().0);
        self.words.head[TOUCHED] = touched.len() as u64;
        for (place, page) in self.words.touched.iter_mut().zip(touched) {
            *place = (*page).into();
        }
    }
}
