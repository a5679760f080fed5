// replay-sample STORE SCRIPT: writes the commands of `script` below to SCRIPT and runs them on the published pager, with its files at STORE. Opcodes, arguments and
// lines are those of crates/replays/src/main.rt. Only calls in the pager's domain are here: their numbers are 0, 2, 3 and 12.
mod storage {
    pub mod page;
    pub mod pager;
}
mod transaction {
    pub mod clog;
    pub mod session;
    pub mod state;
    pub mod tx_table;
    pub mod wal;
    pub use session::*;
    pub use state::*;
    pub use tx_table::*;
}

use std::ffi::{c_int, c_long, c_void};
use std::io::ErrorKind::UnexpectedEof;
use std::sync::atomic::{AtomicBool, AtomicUsize, Ordering::SeqCst};
use storage::pager::Pager;
use transaction::TransactionStatus::{Aborted, Active, Committed};
use transaction::{IsolationLevel, Snapshot, Transaction};

type Command = (u64, u64, u64);

// ---- power that goes at a store

// These two stand before the C library's. While a call is cut they count its stores, and carry out no more of them than LEFT says: what comes then is said to be
// done, and is not, which LOST then tells. A store is one or more of these calls; REST is how many more the one at hand has.
static CUT: AtomicBool = AtomicBool::new(false);
static LEFT: AtomicUsize = AtomicUsize::new(0);
static REST: AtomicUsize = AtomicUsize::new(0);
static LOST: AtomicBool = AtomicBool::new(false);
// An advance has two stores: all that goes to the clog, and page 0.
static ADVANCE: AtomicBool = AtomicBool::new(false);

// Linux's numbers, on x86-64 and on Arm.
const WRITE: c_long = if cfg!(target_arch = "x86_64") { 1 } else { 64 };
const FTRUNCATE: c_long = if cfg!(target_arch = "x86_64") { 77 } else { 46 };

extern "C" {
    fn syscall(number: c_long, ...) -> c_long;
}

// Whether a write or truncation of a file is in a store that is carried out. `rest` is how many more calls that store has, where this is its first.
fn in_store(file: &str, rest: usize) -> bool {
    if ADVANCE.load(SeqCst) {
        return LEFT.load(SeqCst) > if file.ends_with(".clog") { 0 } else { 1 };
    }
    if REST.load(SeqCst) > 0 {
        REST.fetch_sub(1, SeqCst);
        return true;
    }
    if LEFT.load(SeqCst) == 0 {
        return false;
    }
    LEFT.fetch_sub(1, SeqCst);
    REST.store(rest, SeqCst);
    true
}

fn passes(file: &str, rest: usize) -> bool {
    let passed = in_store(file, rest);
    LOST.fetch_or(!passed, SeqCst);
    passed
}

fn name_of(fd: c_int) -> String {
    std::fs::read_link(format!("/proc/self/fd/{fd}")).expect("a file's name").to_string_lossy().into_owned()
}

// A log record begins with a byte, its tag: an image has two writes after it, begin and abort one, commit two, a checkpoint none.
fn rest_of(file: &str, first: u8) -> usize {
    if !file.ends_with(".wal") {
        return 0;
    }
    match first {
        1 | 3 => 2,
        2 | 4 => 1,
        5 => 0,
        tag => panic!("a record of tag {tag}"),
    }
}

#[no_mangle]
pub unsafe extern "C" fn write(fd: c_int, from: *const c_void, count: usize) -> isize {
    if CUT.load(SeqCst) && fd > 2 {
        let file = name_of(fd);
        // Inside a store the first byte is not a tag, and not looked at.
        let rest = if REST.load(SeqCst) > 0 || LEFT.load(SeqCst) == 0 { 0 } else { rest_of(&file, *(from as *const u8)) };
        if !passes(&file, rest) {
            return count as isize;
        }
    }
    syscall(WRITE, fd, from, count) as isize
}

// After a truncation of the log its magic is written, after one of the clog the slot.
#[no_mangle]
pub unsafe extern "C" fn ftruncate64(fd: c_int, len: i64) -> c_int {
    if CUT.load(SeqCst) && !passes(&name_of(fd), 1) {
        return 0;
    }
    syscall(FTRUNCATE, fd, len) as c_int
}

// ---- the published pager

struct Run {
    name: String,
    pager: Option<Pager>,
    aside: Option<Transaction>,
    cut: Option<u64>,
    // Whether the last cut call lost nothing.
    whole: bool,
}

fn mixed(total: u64, n: u64) -> u64 {
    (total % (1 << 32) * 31 + n % (1 << 32)) % (1 << 32)
}

fn sum(bytes: &[u8]) -> u64 {
    bytes.iter().fold(7, |s, b| mixed(s, *b as u64))
}

fn page_of(seed: u64) -> [u8; 4096] {
    std::array::from_fn(|i| (seed as usize + 7 * i + 13 * (i / 256)) as u8)
}

fn meta_of(next: u64, time: u64) -> [u8; 4096] {
    let mut page = [0u8; 4096];
    page[..8].copy_from_slice(b"AERODBM1");
    page[8..16].copy_from_slice(&next.to_le_bytes());
    page[16..24].copy_from_slice(&time.to_le_bytes());
    page[32] = 2;
    page
}

fn image_of(page: u64, seed: u64) -> Vec<u8> {
    [&[1], &(page as u32).to_le_bytes()[..], &page_of(seed)].concat()
}

impl Run {
    // A file that is not there counts as empty.
    fn bytes(&self, ending: &str) -> Vec<u8> {
        std::fs::read(format!("{}{ending}", self.name)).unwrap_or_default()
    }

    fn put(&self, ending: &str, bytes: &[u8]) {
        std::fs::write(format!("{}{ending}", self.name), bytes).expect("a file written");
    }

    fn add(&self, ending: &str, bytes: &[u8]) {
        self.put(ending, &[self.bytes(ending), bytes.to_vec()].concat());
    }

    fn build(&mut self, (op, a, b): Command) {
        let word = &b.to_le_bytes()[..8.min(a as usize)];
        self.pager = None;
        match op {
            0 => {
                self.aside = None;
                ["", ".wal", ".clog"].iter().for_each(|ending| self.put(ending, &[]));
            }
            1 => self.add(".wal", word),
            2 => self.add("", word),
            3 => self.add(".clog", word),
            4 => self.add("", &page_of(a)),
            5 => self.add(".wal", &image_of(a, b)),
            6 => self.add("", &meta_of(a, b)),
            _ => {
                let mut db = self.bytes("");
                db[24..32].copy_from_slice(&a.to_le_bytes());
                db[32..36].copy_from_slice(&(b as u32).to_le_bytes());
                self.put("", &db);
            }
        }
    }

    fn open(&mut self) -> u64 {
        self.pager = None;
        match Pager::new(&self.name) {
            Ok(pager) => {
                self.pager = Some(pager);
                0
            }
            Err(e) if e.kind() == UnexpectedEof => 2,
            Err(e) if e.to_string().starts_with("unknown WAL record tag") => 3,
            Err(e) if e.to_string().starts_with("unsupported AeroDB storage format version") => 12,
            Err(e) => panic!("an opening: {e}"),
        }
    }

    // What a call hands out.
    fn quiet(&mut self, (op, a, b): Command) -> std::io::Result<u64> {
        let pager = self.pager.as_ref().expect("a store");
        match op {
            20 => pager.write_page(a as u32, &page_of(b)).map(|_| 0),
            21 => pager.read_page(a as u32).map(|page| sum(&page)),
            22 => Ok(pager.allocate_transaction_id()),
            23 => pager.allocate_page().map(u64::from),
            24 => {
                self.aside = pager.uninstall_transaction();
                Ok(self.aside.as_ref().map_or(0, |t| t.id()))
            }
            25 => {
                pager.install_transaction(self.aside.take().expect("a transaction set aside"));
                Ok(0)
            }
            _ => panic!("opcode {op}"),
        }
    }

    fn call(&self, (op, a, b): Command) -> std::io::Result<()> {
        let pager = self.pager.as_ref().expect("a store");
        match op {
            30 => pager.begin_transaction(a, Snapshot::new(a, vec![]), None, IsolationLevel::Snapshot),
            31 => pager.flush_page(a as u32),
            32 => pager.commit_transaction(),
            33 => pager.advance_frozen_xid(a),
            34 => pager.rollback_transaction(),
            35 => pager.rollback_transaction_reverting(&[a as u32]),
            36 => pager.rollback_transaction_reverting(&[a as u32, b as u32]),
            _ => panic!("opcode {op}"),
        }
    }

    // What the pager makes of a cut call does not matter: only the files stay. Where it has fewer stores than are to be carried out the script is wrong.
    fn cut_call(&mut self, command: Command, k: u64) {
        LEFT.store(k as usize, SeqCst);
        REST.store(0, SeqCst);
        LOST.store(false, SeqCst);
        ADVANCE.store(command.0 == 33, SeqCst);
        CUT.store(true, SeqCst);
        let _ = self.call(command);
        CUT.store(false, SeqCst);
        assert!(command.0 == 33 || (LEFT.load(SeqCst), REST.load(SeqCst)) == (0, 0), "{command:?} has no store {k}");
        self.whole = !LOST.load(SeqCst);
        self.pager = None;
    }

    // Cuts of a call go from 0 on to the one that loses nothing.
    fn cut_next(&mut self, k: u64) {
        assert!(self.whole == (k == 0), "cuts do not end with the whole call");
        self.cut = Some(k);
    }

    // The answer and what is handed out.
    fn step(&mut self, command: Command) -> (u64, u64) {
        let cut = self.cut.take();
        match command.0 {
            0..=7 => self.build(command),
            10 => return (self.open(), 0),
            11 => self.cut_next(command.1),
            8 | 9 | 12..=19 | 26..=29 | 37.. => return (17, 0),
            _ if self.pager.is_none() => return (15, 0),
            25 if self.aside.is_none() => return (16, 0),
            20..=25 => return (0, self.quiet(command).expect("a call")),
            _ => match cut {
                Some(k) => self.cut_call(command, k),
                None => self.call(command).expect("a call"),
            },
        }
        (0, 0)
    }

    fn store(&self, pager: &Pager) -> String {
        let mut entries: Vec<_> = pager.transaction_table().into_iter().collect();
        entries.sort_by_key(|(id, _)| *id);
        let total = entries.iter().fold(7, |s, (id, status)| {
            let (tag, time) = match status {
                Active => (1, 0),
                Committed(time) => (2, *time),
                Aborted => (3, 0),
            };
            mixed(mixed(mixed(s, *id), tag), time)
        });
        let (time, touched) = pager.seen();
        let id = pager.transaction_id().map_or("-".to_string(), |id| id.to_string());
        let (pages, next, mark) = (pager.num_pages(), pager.peek_next_transaction_id(), pager.frozen_xid());
        format!(" | {pages} {next} {time} {mark} {} {total} {id} {touched}", entries.len())
    }

    fn line(&self, op: u64, (number, gave): (u64, u64)) {
        let store = self.pager.as_ref().map_or(String::new(), |pager| self.store(pager));
        let file = |ending| {
            let bytes = self.bytes(ending);
            format!("{} {}", bytes.len(), sum(&bytes))
        };
        println!("{op} {number} {gave}{store} | {} {} {}", file(".wal"), file(""), file(".clog"));
    }
}

// ---- the script

fn text(op: u64, bytes: &[u8]) -> Vec<Command> {
    let word = |part: &[u8]| u64::from_le_bytes(std::array::from_fn(|i| part.get(i).copied().unwrap_or(0)));
    bytes.chunks(8).map(|part| (op, part.len() as u64, word(part))).collect()
}

// A record of the log that is not an image.
fn record(tag: u8, ids: &[u64]) -> Vec<Command> {
    let bytes: Vec<u8> = std::iter::once(tag).chain(ids.iter().flat_map(|id| id.to_le_bytes())).collect();
    text(1, &bytes)
}

// The same calls, the last of them cut before its first store and after each; then the next opening and what it finds.
fn cuts(before: &[Command], call: Command, stores: u64) -> Vec<Command> {
    (0..=stores).flat_map(|k| [before, &[(11, k, 0), call, (10, 0, 0)]].concat()).collect()
}

// A store from nothing: two transactions, one of them set aside for a while, and the mark.
fn ordinary() -> Vec<Command> {
    vec![
        (0, 0, 0), (10, 0, 0), (22, 0, 0), (23, 0, 0), (23, 0, 0), (21, 1, 0), (32, 0, 0), (34, 0, 0),
        (30, 1, 0), (20, 1, 5), (31, 1, 0), (20, 3, 77), (31, 3, 0), (31, 3, 0), (24, 0, 0), (24, 0, 0),
        (22, 0, 0), (30, 2, 0), (20, 4, 9), (31, 4, 0), (31, 6, 0), (32, 0, 0), (21, 6, 0), (21, 3, 0), (20, 5, 1), (31, 5, 0), (31, 7, 0),
        (10, 0, 0), (22, 0, 0), (30, 3, 0), (24, 0, 0), (25, 0, 0), (20, 1, 200), (31, 1, 0), (20, 4, 201), (31, 4, 0), (34, 0, 0), (21, 1, 0), (21, 4, 0),
        (33, 2, 0), (33, 2, 0), (33, 1, 0), (30, 18, 0), (20, 2, 3), (31, 2, 0), (20, 4, 4), (31, 4, 0), (20, 6, 6), (31, 6, 0), (36, 6, 4), (21, 2, 0), (21, 4, 0),
        (21, 6, 0), (30, 19, 0), (20, 0, 8), (31, 0, 0), (20, 5, 8), (31, 5, 0), (35, 5, 0), (21, 0, 0), (21, 5, 0), (10, 0, 0), (33, 19, 0), (10, 0, 0),
    ]
}

// The first transaction set aside is put in again after another has ended.
fn set_aside() -> Vec<Command> {
    vec![
        (0, 0, 0), (6, 40, 7), (4, 11, 0), (10, 0, 0), (22, 0, 0), (30, 40, 0), (20, 1, 12), (31, 1, 0), (20, 2, 13), (31, 2, 0), (24, 0, 0),
        (20, 1, 14), (31, 1, 0), (25, 0, 0), (25, 0, 0), (20, 2, 15), (32, 0, 0), (21, 1, 0), (21, 2, 0), (10, 0, 0), (21, 1, 0), (21, 2, 0),
    ]
}

// Files as something may have left them: a log with every kind of record, one cut short, one with a tag of no kind, magics and versions that are not ours. Also a
// command of no kind, and a call with no store.
fn found() -> Vec<Command> {
    let whole = [
        vec![(0, 0, 0), (6, 2, 3), (7, 1, 0)],
        text(1, b"AEROWAL2"),
        record(2, &[9]),
        vec![(5, 2, 33)],
        record(3, &[9, 21]),
        record(2, &[10]),
        record(4, &[11]),
        record(5, &[]),
        text(3, b"AEROCLG1\xe4\x93"),
        vec![(10, 0, 0), (21, 2, 0), (21, 1, 0), (22, 0, 0)],
    ];
    let torn = [vec![(0, 0, 0), (99, 0, 0), (32, 0, 0)], text(1, b"AEROWAL2"), vec![(5, 1, 44)], record(3, &[3])];
    let unknown = [vec![(0, 0, 0), (4, 6, 0)], text(1, b"AEROWAL2"), vec![(5, 0, 45), (1, 1, 9)]];
    let version = [vec![(0, 0, 0), (6, 4, 4), (7, 2, 3)], text(1, b"AEROWAL2"), vec![(5, 1, 46)], text(3, b"AEROCLG1\x05")];
    let magics = [vec![(0, 0, 0), (4, 50, 0), (2, 3, 0x070605)], text(1, b"AEROWAL1"), vec![(5, 1, 47)], text(3, b"AEROCLG2\x55")];
    let short = [vec![(0, 0, 0), (6, 8, 8)], text(1, b"AEROW"), text(3, b"AERO")];
    let end = |case: &[Vec<Command>]| [case.concat(), vec![(10, 0, 0), (10, 0, 0)]].concat();
    [whole.concat(), end(&torn), end(&unknown), end(&version), vec![(7, 2, 2), (10, 0, 0), (21, 1, 0)], end(&magics), vec![(21, 0, 0)], end(&short)].concat()
}

// A data page is page 3 where it is not listed; page 1 is none.
fn crashes() -> Vec<Command> {
    let opened: &[Command] = &[(0, 0, 0), (6, 6, 5), (4, 21, 0), (10, 0, 0)];
    let one = [opened, &[(30, 6, 0), (20, 1, 22), (31, 1, 0)]].concat();
    let two = [&one[..], &[(20, 3, 23), (31, 3, 0)]].concat();
    [
        cuts(opened, (30, 6, 0), 2),
        cuts(&[opened, &[(20, 2, 24)]].concat(), (31, 2, 0), 2),
        cuts(&two, (32, 0, 0), 9),
        cuts(&one, (34, 0, 0), 3),
        cuts(&two, (35, 9, 0), 7),
        cuts(&two, (36, 3, 1), 3),
        cuts(&[&two[..], &[(32, 0, 0)]].concat(), (33, 7, 0), 2),
        // A cut is of the next command alone, and only of a call with stores.
        vec![(11, 0, 0), (21, 1, 0), (30, 9, 0)],
    ]
    .concat()
}

fn script() -> Vec<Command> {
    [ordinary(), set_aside(), found(), crashes()].concat()
}

fn main() {
    let name = std::env::args().nth(1).expect("the store's name");
    let out = std::env::args().nth(2).expect("the script's name");
    let script = script();
    let bytes: Vec<u8> = script.iter().flat_map(|(op, a, b)| [*op, *a, *b]).flat_map(u64::to_le_bytes).collect();
    std::fs::write(out, bytes).expect("the script written");
    let mut run = Run { name, pager: None, aside: None, cut: None, whole: true };
    for command in script {
        let answer = run.step(command);
        run.line(command.0, answer);
    }
}
