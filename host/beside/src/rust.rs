//! The published pager as an executor of scripts: the same commands as the port's, on three files in a folder.
use crate::foretell::Holds;
use crate::watch::{self, Step};
use crate::wrong::Wrong;
use nyotmelang::script::{Action, Leaf, Raw, REGISTERS};
use nyotmelang::transcript::{self, Answer};
use nyotmelang::{crc32, Call, CommitTime, Entry, File, Page, Refusal, Status, Transaction, TransactionId, PAGE_BYTES};
use published::storage::pager::Pager;
use published::transaction::clog::Clog;
use published::transaction::wal::Wal;
use published::transaction::{self as theirs, IsolationLevel, Snapshot, TransactionStatus, TransactionTable};
use std::fs::{self, OpenOptions};
use std::io;
use std::os::unix::fs::FileExt;
use std::path::Path;

/// The files' endings, in the order of [`place`].
const ENDINGS: [&str; 3] = [".wal", "", ".clog"];

/// Where a file stands among three.
pub fn place(file: File) -> usize {
    match file {
        File::Log => 0,
        File::Database => 1,
        File::Clog => 2,
    }
}

pub const FILES: [File; 3] = [File::Log, File::Database, File::Clog];

/// No file of the domain is longer.
const MOST_BYTES: u64 = 1 << 24;

/// What an open store shows.
pub struct Seen {
    pub pages: u32,
    pub next: u64,
    pub time: u64,
    pub mark: u64,
    pub table: Vec<Entry>,
    pub transaction: Option<(u64, Vec<u32>)>,
    /// Ascending by page number.
    pub frames: Vec<(u32, Page)>,
}

pub struct Published {
    name: String,
    handles: [fs::File; 3],
    log: Wal,
    clog: Clog,
    pager: Option<Pager>,
    registers: [Option<theirs::Transaction>; REGISTERS],
    // The files as they were last read, or as they were built by hand; then they are yet to be written.
    bytes: [Vec<u8>; 3],
    built: bool,
    wrong: Option<Wrong>,
}

// ---- the files

impl Published {
    /// In this folder, which is to be empty.
    pub fn new(folder: &Path, wrong: Option<Wrong>) -> io::Result<Published> {
        fs::create_dir_all(folder)?;
        let name = folder.join("store.db").to_string_lossy().into_owned();
        let open = |ending| {
            let path = format!("{name}{ending}");
            OpenOptions::new().read(true).write(true).create(true).truncate(false).open(path)
        };
        let mut handles = [open(ENDINGS[0])?, open(ENDINGS[1])?, open(ENDINGS[2])?];
        // The log and the clog by themselves are reached by handles that stay; what the files hold is put under them.
        let (log, _) = Wal::open(&format!("{name}{}", ENDINGS[0]), &mut handles[1])?;
        let clog = Clog::open(&format!("{name}{}", ENDINGS[2]))?;
        let (registers, bytes) = (Default::default(), Default::default());
        Ok(Published { name, handles, log, clog, pager: None, registers, bytes, built: true, wrong })
    }

    /// As after `case`.
    pub fn reset(&mut self) {
        self.registers = Default::default();
        self.put(Default::default());
    }

    /// These files, and no store.
    pub fn put(&mut self, bytes: [Vec<u8>; 3]) {
        self.pager = None;
        self.bytes = bytes;
        self.built = true;
    }

    pub fn bytes(&self) -> &[Vec<u8>; 3] {
        &self.bytes
    }

    pub fn has_store(&self) -> bool {
        self.pager.is_some()
    }

    pub fn drop_store(&mut self) {
        self.pager = None;
    }

    // What was built by hand goes to the files.
    fn settle(&mut self) -> io::Result<()> {
        if std::mem::take(&mut self.built) {
            for (handle, bytes) in self.handles.iter().zip(&self.bytes) {
                handle.write_all_at(bytes, 0)?;
                handle.set_len(bytes.len() as u64)?;
            }
        }
        Ok(())
    }

    fn look(&mut self) -> io::Result<()> {
        for (handle, bytes) in self.handles.iter().zip(&mut self.bytes) {
            let len = handle.metadata()?.len();
            if len > MOST_BYTES {
                return Err(io::Error::other(format!("a file of {len} bytes")));
            }
            bytes.resize(len as usize, 0);
            handle.read_exact_at(bytes, 0)?;
        }
        if let Some(wrong) = self.wrong {
            wrong.bend_files(&mut self.bytes);
        }
        Ok(())
    }

    /// Files built by hand.
    pub fn raw(&mut self, raw: &Raw) {
        match raw {
            Raw::Buffers(_) => self.put(Default::default()),
            Raw::Append(file, bytes) => self.bytes[place(*file)].extend(bytes),
            Raw::Shorten(file, len) => self.bytes[place(*file)].truncate(*len),
            Raw::Overwrite(file, at, bytes) => {
                self.bytes[place(*file)][*at..at + bytes.len()].copy_from_slice(bytes);
            }
        }
        self.built = true;
    }
}

// ---- log and clog by themselves

impl Published {
    /// None where the Rust has no such function: one record at a place.
    pub fn leaf(&mut self, leaf: &Leaf) -> io::Result<Option<Answer>> {
        self.settle()?;
        let mut values = String::new();
        match leaf {
            Leaf::Read(_) => return Ok(None),
            Leaf::Image(page, bytes) => self.log.append_page(*page, bytes)?,
            Leaf::Begin(id) => self.log.append_tx_status(id.0, TransactionStatus::Active)?,
            Leaf::Commit(id, time) => self.log.append_tx_status(id.0, TransactionStatus::Committed(time.0))?,
            Leaf::Abort(id) => self.log.append_tx_status(id.0, TransactionStatus::Aborted)?,
            Leaf::Checkpoint => self.log.append_checkpoint()?,
            Leaf::Truncate => self.log.truncate()?,
            Leaf::Open => self.clog = Clog::open(&format!("{}{}", self.name, ENDINGS[2]))?,
            Leaf::Reset => self.clog.reset()?,
            Leaf::Record(id, status) => self.clog.record(id.0, to_theirs(*status))?,
            Leaf::Compact(below) => self.clog.compact(below.0)?,
            Leaf::Load => {
                let entries = entries_of(self.clog.load()?);
                values = transcript::table(entries.len() as u64, &entries);
            }
        }
        self.look()?;
        Ok(Some(Answer::Accepted(values)))
    }
}

fn to_theirs(status: Status) -> TransactionStatus {
    match status {
        Status::Active => TransactionStatus::Active,
        Status::Committed(time) => TransactionStatus::Committed(time.0),
        Status::Aborted => TransactionStatus::Aborted,
    }
}

fn entries_of(table: TransactionTable) -> Vec<Entry> {
    let ours = |status| match status {
        TransactionStatus::Active => Status::Active,
        TransactionStatus::Committed(time) => Status::Committed(CommitTime(time)),
        TransactionStatus::Aborted => Status::Aborted,
    };
    let mut entries: Vec<_> =
        table.into_iter().map(|(id, status)| Entry { id: TransactionId(id), status: ours(status) }).collect();
    entries.sort_by_key(|entry| entry.id);
    entries
}

fn transaction_text(id: u64, touched: &[u32]) -> String {
    transcript::transaction(&Transaction::new(TransactionId(id), touched))
}

// ---- the pager's calls

impl Published {
    /// A transaction value made by hand.
    pub fn make(&mut self, register: usize, made: &Transaction) {
        let id = made.id().0;
        let mut transaction = new_transaction(id);
        made.touched().iter().for_each(|page| transaction.mark_touched(*page));
        self.registers[register] = Some(transaction);
    }

    /// Makes a call; its answer, with the values as in a transcript.
    pub fn act(&mut self, action: &Action) -> io::Result<Answer> {
        self.settle()?;
        let answer = match action {
            Action::Open => self.open()?,
            Action::Close => {
                self.pager = None;
                Answer::plain()
            }
            _ => match self.pager.take() {
                None => return Ok(Answer::NoStore),
                Some(pager) => {
                    let answer = self.called(&pager, action);
                    self.pager = Some(pager);
                    answer?
                }
            },
        };
        self.look()?;
        Ok(match self.wrong {
            Some(wrong) => wrong.bend_answer(answer),
            None => answer,
        })
    }

    fn open(&mut self) -> io::Result<Answer> {
        self.pager = None;
        match Pager::new(&self.name) {
            Ok(pager) => {
                self.pager = Some(pager);
                Ok(Answer::plain())
            }
            Err(error) => Ok(Answer::Refused(refusal_of(error)?)),
        }
    }

    fn called(&mut self, pager: &Pager, action: &Action) -> io::Result<Answer> {
        let values = match action {
            Action::Stores(call) => {
                make_call(pager, call)?;
                String::new()
            }
            Action::AllocateId => pager.allocate_transaction_id().to_string(),
            Action::AllocatePage => pager.allocate_page()?.to_string(),
            Action::Read(page) => format!("{:08x}", crc32(&pager.read_page(*page)?)),
            Action::Write(page, bytes) => {
                pager.write_page(*page, bytes)?;
                String::new()
            }
            Action::Uninstall(register) => match pager.uninstall_transaction() {
                Some(t) => {
                    let text = transaction_text(t.id(), &t.touched_pages().collect::<Vec<_>>());
                    self.registers[*register] = Some(t);
                    text
                }
                None => "none".to_string(),
            },
            Action::Install(register) => match self.registers[*register].take() {
                None => return Ok(Answer::NoRegister),
                Some(transaction) => {
                    pager.install_transaction(transaction);
                    String::new()
                }
            },
            Action::Table(_) => {
                let entries = entries_of(pager.transaction_table());
                transcript::table(entries.len() as u64, &entries)
            }
            Action::Open | Action::Close => String::new(),
        };
        Ok(Answer::Accepted(values))
    }

    /// The call is made; what it wrote, step by step.
    pub fn journaled(&mut self, action: &Action) -> io::Result<(Answer, Vec<Step>)> {
        self.settle()?;
        let files = [0, 1, 2].map(|i| watch::identity(&self.handles[i]));
        let (answer, steps) = watch::watched(files, || self.act(action));
        Ok((answer?, steps))
    }
}

fn new_transaction(id: u64) -> theirs::Transaction {
    theirs::Transaction::new(id, Snapshot::new(id, vec![]), None, IsolationLevel::Snapshot)
}

fn make_call(pager: &Pager, call: &Call) -> io::Result<()> {
    match call {
        Call::Begin(id) => pager.begin_transaction(id.0, Snapshot::new(id.0, vec![]), None, IsolationLevel::Snapshot),
        Call::Flush(page) => pager.flush_page(*page),
        Call::Commit => pager.commit_transaction(),
        Call::Rollback(catalog) => pager.rollback_transaction_reverting(catalog),
        Call::Advance(mark) => pager.advance_frozen_xid(mark.0),
    }
}

// The three refusals that are the Rust's own, by its errors.
fn refusal_of(error: io::Error) -> io::Result<Refusal> {
    let words = error.to_string();
    match error.kind() {
        io::ErrorKind::UnexpectedEof => Ok(Refusal::Torn),
        io::ErrorKind::InvalidData if words.starts_with("unknown WAL record tag") => Ok(Refusal::UnknownTag),
        io::ErrorKind::InvalidData if words.contains("storage format version") => Ok(Refusal::BadVersion),
        _ => Err(error),
    }
}

// ---- what it shows

impl Published {
    pub fn seen(&self) -> Option<Seen> {
        let pager = self.pager.as_ref()?;
        let (time, frames, touched) = pager.seen();
        let mut seen = Seen {
            pages: pager.num_pages(),
            next: pager.peek_next_transaction_id(),
            time,
            mark: pager.frozen_xid(),
            table: entries_of(pager.transaction_table()),
            transaction: pager.transaction_id().map(|id| (id, touched)),
            frames,
        };
        if let Some(wrong) = self.wrong {
            wrong.bend_store(&mut seen);
        }
        Some(seen)
    }

    /// What numbers are foretold from, whatever is put wrong in what is seen.
    pub fn holds(&self) -> Option<Holds> {
        let pager = self.pager.as_ref()?;
        let (_, frames, touched) = pager.seen();
        Some(Holds {
            pages: pager.num_pages(),
            mark: pager.frozen_xid(),
            ids: pager.transaction_table().into_keys().collect(),
            transaction: pager.transaction_id().map(|id| (id, touched)),
            resident: frames.into_iter().map(|(page, _)| page).collect(),
        })
    }

    /// The lines R, S and D of a transcript.
    pub fn lines(&self, answer: &str) -> String {
        let store = self.seen().map_or("S -".to_string(), |seen| store_line(&seen));
        format!("R {answer}\n{store}\n{}\n", files_line(&self.bytes))
    }
}

fn store_line(seen: &Seen) -> String {
    let frames: Vec<_> = seen.frames.iter().map(|(page, bytes)| format!(" {page}:{:08x}", crc32(bytes))).collect();
    format!(
        "S {} {} {} {} T {} X {} F {}{}",
        seen.pages,
        seen.next,
        seen.time,
        seen.mark,
        transcript::table(seen.table.len() as u64, &seen.table),
        seen.transaction.as_ref().map_or("-".to_string(), |(id, touched)| transaction_text(*id, touched)),
        frames.len(),
        frames.concat(),
    )
}

pub fn files_line(bytes: &[Vec<u8>; 3]) -> String {
    let part = |letter, file| {
        let bytes = &bytes[place(file)];
        format!("{letter} {} {:08x}", bytes.len(), crc32(bytes))
    };
    [part('D', File::Database), part('L', File::Log), part('C', File::Clog)].join(" ")
}

const _: () = assert!(PAGE_BYTES == published::storage::page::PAGE_SIZE);
