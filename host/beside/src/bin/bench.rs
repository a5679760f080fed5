//! bench [ROUNDS]: the same work on the port, by its C functions, and on the published pager, in one process, with a bare memory copy beside them. The pager keeps its
//! files in a memory file system, once with its syncs as published and once with syncs that do nothing. Rounds alternate between the four, the best of each counts,
//! and ratios are written, not seconds. No buffer is cleared in what is timed: files are put in their first state before a batch, outside the clock.
use beside::folder::Folder;
use beside::watch::without_syncs;
use nyotmelang::{File, Files, Page, Sizes, Store, TransactionId, PAGE_BYTES};
use published::storage::pager::Pager;
use published::transaction::{IsolationLevel, Snapshot};
use std::hint::black_box;
use std::time::Instant;

const PAGE: Page = [7; PAGE_BYTES];
const MEBI: usize = 1 << 20;

/// What a side is before a batch: entries of the table, resident pages, and whether all of them are touched by a transaction.
#[derive(Clone, Copy)]
struct State {
    entries: u64,
    frames: u32,
    touched: bool,
    /// The pages come in falling order.
    falling: bool,
}

const TYPICAL: State = State { entries: 16, frames: 8, touched: false, falling: false };
const FULLEST: State = State { entries: 256, frames: 64, touched: true, falling: false };
const FALLING: State = State { falling: true, ..FULLEST };

/// One of the two sides, with a store open.
trait Side {
    fn begin(&mut self, id: u64);
    fn write(&mut self, page: u32);
    fn read(&mut self, page: u32);
    fn flush(&mut self, page: u32);
    fn commit(&mut self);
    fn rollback(&mut self);
    fn advance(&mut self, mark: u64);
}

struct Port {
    files: Files<'static>,
    store: Store,
    page: Page,
}

impl Side for Port {
    fn begin(&mut self, id: u64) {
        self.store.begin(&mut self.files, TransactionId(id)).expect("begin");
    }
    fn write(&mut self, page: u32) {
        self.store.write_page(&mut self.files, page, black_box(&PAGE)).expect("write");
    }
    fn read(&mut self, page: u32) {
        self.store.read_page_into(&mut self.files, page, black_box(&mut self.page)).expect("read");
    }
    fn flush(&mut self, page: u32) {
        self.store.flush(&mut self.files, page).expect("flush");
    }
    fn commit(&mut self) {
        self.store.commit(&mut self.files).expect("commit");
    }
    fn rollback(&mut self) {
        self.store.rollback(&mut self.files, &[]).expect("rollback");
    }
    fn advance(&mut self, mark: u64) {
        self.store.advance(&mut self.files, TransactionId(mark)).expect("advance");
    }
}

impl Side for Pager {
    fn begin(&mut self, id: u64) {
        let snapshot = Snapshot::new(id, vec![]);
        self.begin_transaction(id, snapshot, None, IsolationLevel::Snapshot).expect("begin");
    }
    fn write(&mut self, page: u32) {
        self.write_page(page, black_box(&PAGE)).expect("write");
    }
    fn read(&mut self, page: u32) {
        black_box(self.read_page(page).expect("read"));
    }
    fn flush(&mut self, page: u32) {
        self.flush_page(page).expect("flush");
    }
    fn commit(&mut self) {
        self.commit_transaction().expect("commit");
    }
    fn rollback(&mut self) {
        self.rollback_transaction().expect("rollback");
    }
    fn advance(&mut self, mark: u64) {
        self.advance_frozen_xid(mark).expect("advance");
    }
}

/// Brings a side that has just been opened on nothing into a state.
fn bring(side: &mut impl Side, state: State) {
    for id in 1..=state.entries {
        side.begin(id);
        side.commit();
    }
    if state.touched {
        side.begin(state.entries);
    }
    for i in 0..state.frames {
        let page = if state.falling { state.frames - 1 - i } else { i };
        side.write(page);
        if state.touched {
            side.flush(page);
        }
    }
}

fn port(state: State) -> Port {
    let mut files = Files::new(Sizes { log: 16 * MEBI, db: MEBI, clog: 4096, frames: 64 * PAGE_BYTES });
    let store = Store::open(&mut files).expect("an opening");
    let mut port = Port { files, store, page: PAGE };
    bring(&mut port, state);
    port
}

/// The pager's files hold these bytes: log, database, clog.
fn fresh(folder: &Folder, given: [&[u8]; 3]) -> String {
    let name = folder.path().join("store.db").to_string_lossy().into_owned();
    for (ending, bytes) in [".wal", "", ".clog"].iter().zip(given) {
        std::fs::write(format!("{name}{ending}"), bytes).expect("a file of the store");
    }
    name
}

fn pager(folder: &Folder, state: State) -> Pager {
    let name = fresh(folder, [&[], &[], &[]]);
    let mut pager = Pager::new(&name).expect("an opening");
    bring(&mut pager, state);
    pager
}

// ---- the clock

/// Nanoseconds of one turn, over a batch of turns.
fn clock(turns: u64, mut turn: impl FnMut(u64)) -> f64 {
    let start = Instant::now();
    for i in 0..turns {
        turn(i);
    }
    start.elapsed().as_nanos() as f64 / turns as f64
}

/// The best of port, pager as published, pager without syncs, and bare copy.
struct Best([f64; 4]);

impl Best {
    fn new() -> Best {
        Best([f64::MAX; 4])
    }

    fn note(&mut self, place: usize, nanoseconds: f64) {
        self.0[place] = self.0[place].min(nanoseconds);
    }

    fn show(&self, name: &str, copied: usize) {
        let [port, rust, unsynced, copy] = self.0;
        let (copies, theirs) = (port / copy, rust / copy);
        println!("{name:34}{copied:>10}{copies:>10.2}{theirs:>10.2}{:>12.2}{:>12.2}", rust / port, unsynced / port);
    }
}

fn bare(bytes: usize, turns: u64) -> f64 {
    let (from, mut to) = (vec![1u8; bytes], vec![0u8; bytes]);
    clock(turns, |_| {
        to.copy_from_slice(black_box(&from));
        black_box(&mut to);
    })
}

/// A call, timed on both sides from the same state; `copied` bytes are the bare copy beside it.
fn calls(
    folder: &Folder,
    rounds: u32,
    name: &str,
    copied: usize,
    state: State,
    turns: u64,
    turn: impl Fn(&mut dyn Side, u64),
) {
    let mut best = Best::new();
    for _ in 0..rounds {
        let mut ours = port(state);
        best.note(0, clock(turns, |i| turn(&mut ours, i)));
        for (place, without) in [(1, false), (2, true)] {
            let mut theirs = pager(folder, state);
            without_syncs(without);
            best.note(place, clock(turns, |i| turn(&mut theirs, i)));
            without_syncs(false);
        }
        best.note(3, bare(copied, turns));
    }
    best.show(name, copied);
}

/// An opening of these files: log, database, clog.
fn opening(folder: &Folder, rounds: u32, name: &str, copied: usize, given: [&[u8]; 3]) {
    let mut best = Best::new();
    let mut files = Files::new(Sizes { log: 16 * MEBI, db: 16 * MEBI, clog: MEBI, frames: 64 * PAGE_BYTES });
    for _ in 0..rounds {
        for (file, bytes) in [File::Log, File::Database, File::Clog].into_iter().zip(given) {
            files.set_len(file, 0);
            files.append(file, bytes);
        }
        best.note(0, clock(1, |_| drop(black_box(Store::open(&mut files).expect("an opening")))));
        for (place, without) in [(1, false), (2, true)] {
            let path = fresh(folder, given);
            without_syncs(without);
            best.note(place, clock(1, |_| drop(black_box(Pager::new(&path).expect("an opening")))));
            without_syncs(false);
        }
        best.note(3, bare(copied, 1));
    }
    best.show(name, copied);
}

// ---- files for the openings

/// A log of images up to 16 MiB.
fn long_log() -> Vec<u8> {
    let mut log = b"AEROWAL2".to_vec();
    for page in (0u32..4000).cycle() {
        if log.len() + 5 + PAGE_BYTES > 16 * MEBI {
            return log;
        }
        log.push(1);
        log.extend(page.to_le_bytes());
        log.extend([page as u8 | 1; PAGE_BYTES]);
    }
    log
}

/// A log of begin records up to 16 MiB, of so many ids in turn.
fn begun_log(ids: u64) -> Vec<u8> {
    let mut log = b"AEROWAL2".to_vec();
    for id in (1..=ids).cycle().take((16 * MEBI - 8) / 9) {
        log.push(2);
        log.extend(id.to_le_bytes());
    }
    log
}

/// A clog of 1 MiB with 256 ids, and a meta page beside it.
fn full_clog() -> (Vec<u8>, Vec<u8>) {
    let mut clog = b"AEROCLG1".to_vec();
    clog.resize(MEBI, 0);
    for k in 0..256 {
        clog[8 + 4000 * k] = 2;
    }
    let mut page = [0u8; PAGE_BYTES];
    page[..8].copy_from_slice(b"AERODBM1");
    for (at, byte) in [(8, 1), (16, 1), (32, 2)] {
        page[at] = byte;
    }
    (page.to_vec(), clog)
}

fn main() {
    let rounds = std::env::args().nth(1).map_or(7, |n| n.parse().expect("a number of rounds"));
    let folder = Folder::new().expect("a folder in memory");
    let f = &folder;
    println!(
        "{:34}{:>10}{:>10}{:>10}{:>12}{:>12}",
        "", "bytes", "port/copy", "Rust/copy", "Rust/port", "unsynced/port"
    );
    calls(f, rounds, "page read, typical", PAGE_BYTES, TYPICAL, 20_000, |s, _| s.read(3));
    calls(f, rounds, "page write, typical", PAGE_BYTES, TYPICAL, 20_000, |s, _| s.write(3));
    calls(f, rounds, "page read, fullest", PAGE_BYTES, FULLEST, 5_000, |s, _| s.read(3));
    calls(f, rounds, "page write, fullest", PAGE_BYTES, FULLEST, 5_000, |s, _| s.write(3));
    calls(f, rounds, "page read, fullest, falling", PAGE_BYTES, FALLING, 5_000, |s, _| s.read(3));
    calls(f, rounds, "page write, fullest, falling", PAGE_BYTES, FALLING, 5_000, |s, _| s.write(3));
    calls(f, rounds, "begin, 8 writes and flushes, commit", 26 * PAGE_BYTES, TYPICAL, 100, |s, _| {
        s.begin(5);
        (0..8).for_each(|page| {
            s.write(page);
            s.flush(page);
        });
        s.commit();
    });
    calls(f, rounds, "begin, commit", 4 * PAGE_BYTES, TYPICAL, 500, |s, _| {
        s.begin(5);
        s.commit();
    });
    calls(f, rounds, "begin, rollback", 4 * PAGE_BYTES, TYPICAL, 500, |s, _| {
        s.begin(5);
        s.rollback();
    });
    calls(f, rounds, "flush outside", 2 * PAGE_BYTES, TYPICAL, 500, |s, _| s.flush(3));
    calls(f, rounds, "advance", 2 * PAGE_BYTES, TYPICAL, 500, |s, i| s.advance(i + 1));
    let log = long_log();
    opening(f, rounds, "opening, a log of 16 MiB", log.len(), [&log, &[], &[]]);
    for ids in [16, 256] {
        let log = begun_log(ids);
        let name = format!("opening, begin records of {ids} ids");
        opening(f, rounds.min(3), &name, log.len(), [&log, &[], &[]]);
    }
    let (db, clog) = full_clog();
    opening(f, rounds, "opening, a full clog", clog.len(), [&[], &db, &clog]);
}
