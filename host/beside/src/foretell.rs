//! The number that document 01 gives a command, worked out from its rules alone: from the sizes of the buffers, the files, and what the Rust's store holds. Nothing of it
//! is asked of the port, so that a call which the port refuses, and which it should not, is seen; and so is one that it should refuse.
use crate::rust::place;
use nyotmelang::script::{Action, Command, Leaf, REGISTERS};
use nyotmelang::{Call, File, Sizes, Transaction};
use std::collections::BTreeSet;

const PAGE: u64 = 4096;
const HEADER: usize = 8;
const IMAGE: usize = 4101;
const MOST: usize = 16_777_216;
const MOST_CLOG: usize = 1_048_576;
const NO_PAGE: u32 = u32::MAX;

/// How document 01 is read: its limits and its order. A reading that is wrong in one point is what a port would have that refuses wrongly there.
#[derive(Clone, Debug)]
pub struct Reading {
    // Bytes that log, database and clog have more than their buffers.
    room: [usize; 3],
    // Entries, touched pages and frames; frames more than the buffer has.
    entries: usize,
    touched: usize,
    frames: usize,
    // The first number in this list that is met is given, then 2 or 3.
    order: Vec<u8>,
    // Numbers that are never given.
    never: Vec<u8>,
    // A clog shorter than this gives 1 to its calls.
    header: usize,
    // Whether the ids of a clog count in an opening only where a meta page stands.
    stale: bool,
}

impl Default for Reading {
    fn default() -> Reading {
        let order = vec![1, 14, 12, 9, 10, 11, 4, 5, 6, 7, 8, 13];
        let (room, never) = ([0; 3], Vec::new());
        Reading { room, entries: 256, touched: 64, frames: 0, order, never, header: HEADER, stale: false }
    }
}

/// Readings that are wrong in one point, by name.
pub const MISREAD: [&str; 17] = [
    "log-room",
    "database-room",
    "clog-room",
    "entries",
    "touched",
    "frames",
    "header",
    "stale-clog",
    "4-after-5",
    "10-after-11",
    "14-after-9",
    "no-1",
    "no-8",
    "no-9",
    "no-10",
    "no-12",
    "no-13",
];

impl Reading {
    /// One of [`MISREAD`].
    pub fn wrong_in(name: &str) -> Option<Reading> {
        let mut reading = Reading::default();
        match name {
            "log-room" => reading.room[0] = 1,
            "database-room" => reading.room[1] = 1,
            "clog-room" => reading.room[2] = 1,
            "entries" => reading.entries = 257,
            "touched" => reading.touched = 65,
            "frames" => reading.frames = 1,
            "header" => reading.header = 7,
            "stale-clog" => reading.stale = true,
            "4-after-5" => reading.swap(4, 5),
            "10-after-11" => reading.swap(10, 11),
            "14-after-9" => reading.swap(14, 9),
            _ => reading.never.push(name.strip_prefix("no-")?.parse().ok()?),
        }
        Some(reading)
    }

    fn swap(&mut self, one: u8, other: u8) {
        let at = |number| self.order.iter().position(|own| *own == number).expect("a number of the order");
        let (i, k) = (at(one), at(other));
        self.order.swap(i, k);
    }

    fn first(&self, met: &[u8]) -> u8 {
        let met = |number: &&u8| met.contains(number) && !self.never.contains(number);
        self.order.iter().chain(&[2, 3]).find(met).copied().unwrap_or(0)
    }
}

/// What the Rust's store holds.
pub struct Holds {
    pub pages: u32,
    pub mark: u64,
    pub ids: BTreeSet<u64>,
    /// Id and touched pages of the installed transaction.
    pub transaction: Option<(u64, Vec<u32>)>,
    pub resident: BTreeSet<u32>,
}

impl Holds {
    fn touches(&self, page: u32) -> bool {
        self.transaction.as_ref().is_some_and(|(_, touched)| touched.contains(&page))
    }
}

/// What a command meets.
pub struct Met<'m> {
    pub reading: &'m Reading,
    pub sizes: Sizes,
    /// Log, database, clog.
    pub files: &'m [Vec<u8>; 3],
    pub holds: Option<Holds>,
    pub registers: &'m [Option<Transaction>; REGISTERS],
}

// What a call wants: bytes for the log, an end in the database, an id with a slot and an entry, a page with a frame.
#[derive(Default)]
struct Wants {
    log: usize,
    end: u64,
    id: Option<u64>,
    frame: Option<u32>,
}

fn end_of(page: u32) -> u64 {
    (u64::from(page) + 1) * PAGE
}

impl Met<'_> {
    /// The first word of its answer: a number, or that no call is made; none for a command that is no call.
    pub fn foretold(&self, command: &Command) -> Option<String> {
        match command {
            Command::Leaf(leaf) => Some(self.reading.first(&self.leaf(leaf)).to_string()),
            Command::Action(action)
            | Command::Count(action)
            | Command::Told(_, action)
            | Command::Cut(_, action)
            | Command::CutGo(_, action)
            | Command::Cuts(action) => Some(self.action(action)),
            Command::Case(_) | Command::Raw(_) | Command::Make(..) | Command::Poke(_) => None,
            // Document 02's, of which the Rust knows nothing.
            Command::Kept(_) | Command::Pages(_) | Command::Second(_) => None,
        }
    }

    fn action(&self, action: &Action) -> String {
        let met = match (action, &self.holds) {
            (Action::Open, _) => self.open(),
            (Action::Close, _) => Vec::new(),
            (_, None) => return "nostore".to_string(),
            (Action::Install(register), _) if self.registers[*register].is_none() => return "noreg".to_string(),
            (_, Some(holds)) => {
                let mut met = self.call(action, holds);
                met.extend(self.unfit().then_some(1));
                met.extend(self.out_of_form(holds).then_some(14));
                met
            }
        };
        self.reading.first(&met).to_string()
    }

    fn size(&self, file: File) -> usize {
        let (size, slack) = match file {
            File::Log => (self.sizes.log, self.reading.room[0]),
            File::Database => (self.sizes.db, self.reading.room[1]),
            File::Clog => (self.sizes.clog, self.reading.room[2]),
        };
        size + slack
    }

    fn len(&self, file: File) -> usize {
        self.files[place(file)].len()
    }

    fn frames(&self) -> usize {
        (self.sizes.frames / PAGE as usize).min(64) + self.reading.frames
    }

    // The clog has no byte for the id's slot.
    fn past_clog(&self, id: u64) -> bool {
        self.size(File::Clog) < HEADER || id / 4 >= (self.size(File::Clog) - HEADER) as u64
    }
}

// ---- 1 and 14, which every call on a store tests

impl Met<'_> {
    fn unfit(&self) -> bool {
        let over = self.len(File::Log) > self.sizes.log
            || self.len(File::Database) > self.sizes.db
            || self.len(File::Clog) > self.sizes.clog;
        let large = self.sizes.log > MOST || self.sizes.db > MOST || self.sizes.clog > MOST_CLOG;
        over || large || self.sizes.frames < PAGE as usize
    }

    // The Rust's table, touched pages and frames are sets.
    fn out_of_form(&self, holds: &Holds) -> bool {
        let short = self.len(File::Log) < HEADER || self.len(File::Clog) < HEADER;
        let touched = holds.transaction.as_ref().map_or(&[][..], |(_, touched)| touched);
        let many = holds.ids.len() > self.reading.entries
            || touched.len() > self.reading.touched
            || holds.resident.len() > self.frames();
        short || many || touched.contains(&NO_PAGE) || holds.resident.contains(&NO_PAGE)
    }
}

fn transaction_formed(transaction: &Transaction) -> bool {
    let touched = transaction.touched();
    let ascending = touched.windows(2).all(|two| two[0] < two[1]);
    touched.len() <= 64 && ascending && !touched.contains(&NO_PAGE)
}

// ---- the calls on a store

impl Met<'_> {
    fn call(&self, action: &Action, holds: &Holds) -> Vec<u8> {
        match action {
            Action::Stores(call) => self.with_stores(call, holds),
            Action::Read(page) | Action::Write(page, _) => {
                let mut met = self.wanting(holds, &Wants { frame: Some(*page), ..Wants::default() });
                met.extend((*page == NO_PAGE).then_some(10));
                met
            }
            Action::AllocatePage => (holds.pages == NO_PAGE).then_some(10).into_iter().collect(),
            Action::Table(room) => (*room < holds.ids.len()).then_some(13).into_iter().collect(),
            Action::Install(register) => {
                let formed = self.registers[*register].as_ref().is_none_or(transaction_formed);
                let mut met: Vec<u8> = holds.transaction.is_some().then_some(9).into_iter().collect();
                met.extend((!formed).then_some(14));
                met
            }
            Action::Open | Action::Close | Action::AllocateId | Action::Uninstall(_) => Vec::new(),
        }
    }

    fn wanting(&self, holds: &Holds, wants: &Wants) -> Vec<u8> {
        let full = |id: u64| !holds.ids.contains(&id) && holds.ids.len() >= self.reading.entries;
        let taken = |page: u32| !holds.resident.contains(&page) && holds.resident.len() >= self.frames();
        let mut met = Vec::new();
        met.extend((self.len(File::Log) + wants.log > self.size(File::Log) && wants.log > 0).then_some(4));
        met.extend((wants.end > self.size(File::Database) as u64).then_some(5));
        met.extend(wants.id.is_some_and(|id| self.past_clog(id)).then_some(6));
        met.extend(wants.id.is_some_and(full).then_some(7));
        met.extend(wants.frame.is_some_and(taken).then_some(8));
        met
    }

    fn with_stores(&self, call: &Call, holds: &Holds) -> Vec<u8> {
        let mut met = Vec::new();
        let listed: &[u32] = match call {
            Call::Flush(page) => std::slice::from_ref(page),
            Call::Rollback(list) => list,
            _ => &[],
        };
        met.extend(listed.contains(&NO_PAGE).then_some(10));
        if let (Call::Flush(page), Some((_, touched))) = (call, &holds.transaction) {
            met.extend((!holds.touches(*page) && touched.len() >= self.reading.touched).then_some(11));
        }
        if let Some(wants) = wants_of(call, holds) {
            met.extend(self.wanting(holds, &wants));
        }
        met
    }
}

// None for a call that has no stores.
fn wants_of(call: &Call, holds: &Holds) -> Option<Wants> {
    let resident = |page: &u32| holds.resident.contains(page);
    let last = |pages: &[u32]| pages.iter().copied().map(end_of).max().unwrap_or(0).max(PAGE);
    let held = holds.transaction.as_ref();
    Some(match call {
        Call::Begin(id) => Wants { log: 9, id: Some(id.0), ..Wants::default() },
        Call::Flush(page) if held.is_none() && resident(page) => {
            Wants { log: IMAGE, end: end_of(*page), ..Wants::default() }
        }
        Call::Flush(_) => return None,
        Call::Commit => {
            let (id, touched) = held?;
            let pages: Vec<u32> = touched.iter().copied().filter(|page| resident(page)).collect();
            Wants { log: IMAGE * pages.len() + 17 + 1, end: last(&pages), id: Some(*id), frame: Some(0) }
        }
        Call::Rollback(list) => {
            let (id, touched) = held?;
            let data = |page: &u32| resident(page) && *page != 1 && *page != 2 && !list.contains(page);
            let pages: Vec<u32> = touched.iter().copied().filter(data).collect();
            let log = if pages.is_empty() { 9 } else { 9 + IMAGE * pages.len() + 1 };
            Wants { log, end: last(&pages), id: Some(*id), frame: Some(0) }
        }
        Call::Advance(mark) if mark.0 > holds.mark => Wants { end: PAGE, frame: Some(0), ..Wants::default() },
        Call::Advance(_) => return None,
    })
}

// ---- opening

struct Scanned {
    ids: BTreeSet<u64>,
    // The furthest end of an image in the database.
    end: u64,
    bad: Option<u8>,
}

// How long a record is by its tag, and none for no record.
fn length_of(tag: u8) -> Option<usize> {
    match tag {
        1 => Some(IMAGE),
        2 | 4 => Some(9),
        3 => Some(17),
        5 => Some(1),
        _ => None,
    }
}

fn number(bytes: &[u8]) -> u64 {
    bytes.iter().rev().fold(0, |value, byte| value << 8 | u64::from(*byte))
}

// The records up to the first bad one.
fn scanned(log: &[u8]) -> Scanned {
    let mut found = Scanned { ids: BTreeSet::new(), end: 0, bad: None };
    let mut rest = log.strip_prefix(b"AEROWAL2").unwrap_or_default();
    while let Some(tag) = rest.first() {
        let Some(len) = length_of(*tag) else {
            found.bad = Some(3);
            return found;
        };
        if rest.len() < len {
            found.bad = Some(2);
            return found;
        }
        match tag {
            1 => found.end = found.end.max((number(&rest[1..5]) + 1) * PAGE),
            5 => {}
            _ => drop(found.ids.insert(number(&rest[1..9]))),
        }
        rest = &rest[len..];
    }
    found
}

// The ids whose slots are not 0; a clog without its header has none.
fn slots(clog: &[u8]) -> impl Iterator<Item = u64> + '_ {
    let body = clog.strip_prefix(b"AEROCLG1").unwrap_or_default();
    let ids = move |(i, byte): (usize, &u8)| {
        let byte = *byte;
        (0..4).filter(move |slot| byte >> (2 * slot) & 3 != 0).map(move |slot| 4 * i as u64 + slot)
    };
    body.iter().enumerate().flat_map(ids)
}

impl Met<'_> {
    fn open(&self) -> Vec<u8> {
        let [log, db, clog] = self.files;
        let mut met = Vec::new();
        met.extend(self.unfit().then_some(1));
        let meta = db.len() >= PAGE as usize && db.starts_with(b"AERODBM1");
        met.extend((meta && ![0, 2].contains(&number(&db[32..36]))).then_some(12));
        let mut found = scanned(log);
        met.extend((self.size(File::Log) < HEADER).then_some(4));
        let past = found.end > self.size(File::Database) as u64 || found.end > u64::from(NO_PAGE) * PAGE;
        met.extend(past.then_some(5));
        let past = self.size(File::Clog) < HEADER || found.ids.iter().any(|id| self.past_clog(*id));
        met.extend(past.then_some(6));
        if meta || !self.reading.stale {
            found.ids.extend(slots(clog));
        }
        met.extend((found.ids.len() > self.reading.entries).then_some(7));
        met.extend(found.bad);
        met
    }
}

// ---- log and clog by themselves

impl Met<'_> {
    fn leaf(&self, leaf: &Leaf) -> Vec<u8> {
        let [log, _, clog] = self.files;
        let of_log = self.sizes.log > MOST || log.len() > self.sizes.log;
        let of_clog = self.sizes.clog > MOST_CLOG || clog.len() > self.sizes.clog;
        let append = |len: usize| vec_of(&[(1, of_log), (4, log.len() + len > self.size(File::Log))]);
        let short = of_clog || clog.len() < self.reading.header;
        match leaf {
            Leaf::Read(at) => {
                let mut met = vec_of(&[(1, of_log || *at > log.len())]);
                met.extend(log.get(*at..).and_then(bad_at));
                met
            }
            Leaf::Image(page, _) => {
                let mut met = append(IMAGE);
                met.extend((*page == NO_PAGE).then_some(10));
                met
            }
            Leaf::Begin(_) | Leaf::Abort(_) => append(9),
            Leaf::Commit(..) => append(17),
            Leaf::Checkpoint => append(1),
            Leaf::Truncate => vec_of(&[(1, of_log), (4, self.size(File::Log) < HEADER)]),
            Leaf::Open | Leaf::Reset => vec_of(&[(1, of_clog), (6, self.size(File::Clog) < HEADER)]),
            Leaf::Record(id, _) => vec_of(&[(1, short), (6, self.past_clog(id.0))]),
            Leaf::Compact(_) => vec_of(&[(1, short)]),
            // Whatever its magic says: only open looks at it.
            Leaf::Load => {
                let body = [&b"AEROCLG1"[..], clog.get(HEADER..).unwrap_or_default()].concat();
                vec_of(&[(1, short), (7, slots(&body).count() > self.reading.entries)])
            }
        }
    }
}

fn vec_of(met: &[(u8, bool)]) -> Vec<u8> {
    met.iter().filter(|(_, met)| *met).map(|(number, _)| *number).collect()
}

// What is wrong with the record at the front.
fn bad_at(rest: &[u8]) -> Option<u8> {
    match length_of(*rest.first()?) {
        None => Some(3),
        Some(len) => (rest.len() < len).then_some(2),
    }
}
