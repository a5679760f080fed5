//! The port and the Rust on the same commands, held against each other after every one; and the number of each answer against what document 01 gives it.
use crate::foretell::{Met, Reading};
use crate::rust::{place, Published, Seen, FILES};
use crate::tally::Tally;
use crate::wrong::Wrong;
use nyotmelang::executor::{Executor, DEFAULT_SIZES, STALE};
use nyotmelang::script::{Action, Command, Leaf, Raw, REGISTERS};
use nyotmelang::transcript::Answer;
use nyotmelang::{File, Files, Refusal, Sizes, Store, Transaction, TransactionId, PAGE_BYTES};
use std::io;
use std::path::Path;

pub struct Pair {
    pub(crate) port: Executor,
    pub(crate) rust: Published,
    // Where files are opened as a crash has left them.
    pub(crate) crashed: Published,
    pub(crate) wrong: Option<Wrong>,
    /// A refusal of the port's own with this number is asked of the Rust too, which shows what it would do.
    pub beyond: Option<u8>,
    /// How document 01 is read where numbers are foretold.
    pub reading: Reading,
    // Transactions as they were made or handed out, in form or not.
    registers: [Option<Transaction>; REGISTERS],
    pub tally: Tally,
    // The files of a case that has made no call yet.
    young: Option<Files<'static>>,
    // The last answer, and the Rust's lines B before it.
    pub(crate) answer: String,
    pub(crate) before: String,
}

/// Why a script did not go through.
#[derive(Debug)]
pub enum Fault {
    /// The two sides differ, in this.
    Differ(String),
    /// A command makes no sense where it stands.
    Malformed(String),
    /// The Rust cannot follow, until the next case: a value is put into the port's store by hand, or a page is so far out that the Rust's list of all pages before it
    /// does not fit into memory.
    Alone,
}

impl From<io::Error> for Fault {
    fn from(error: io::Error) -> Fault {
        Fault::Differ(format!("the Rust ends in an error: {error}"))
    }
}

pub type Held = Result<(), Fault>;

pub(crate) fn differ<T>(what: String) -> Result<T, Fault> {
    Err(Fault::Differ(what))
}

impl Pair {
    /// In a folder of its own.
    pub fn new(folder: &Path, wrong: Option<Wrong>) -> io::Result<Pair> {
        let (rust, crashed) = (Published::new(&folder.join("a"), wrong)?, Published::new(&folder.join("b"), wrong)?);
        let (port, tally, answer, before) = (Executor::new(), Tally::default(), String::new(), String::new());
        let (reading, registers) = (Reading::default(), Default::default());
        Ok(Pair { port, rust, crashed, wrong, beyond: None, reading, registers, tally, young: None, answer, before })
    }

    /// As after `case`.
    pub fn reset(&mut self) {
        self.young = Some(Files::filled(DEFAULT_SIZES, STALE));
        self.registers = Default::default();
        self.rust.reset();
    }

    /// Runs a command on both sides and holds them against each other.
    pub fn step(&mut self, command: &Command) -> Held {
        self.before.clear();
        self.answer = "0".to_string();
        match (command, &mut self.young) {
            (Command::Case(_), _) => {
                self.reset();
                return Ok(());
            }
            (Command::Raw(raw), Some(files)) => {
                build(files, raw)?;
                self.rust.raw(raw);
                return Ok(());
            }
            _ => {}
        }
        if let Some(files) = self.young.take() {
            self.port = Executor::with_files(files);
        }
        let foretold = self.foretold(command);
        let handed_out = self.rust.holds().and_then(|holds| holds.transaction);
        self.grown(command)?;
        self.as_foretold(foretold)?;
        self.note_registers(command, handed_out);
        agree(&self.port, &self.rust)
    }

    fn grown(&mut self, command: &Command) -> Held {
        match command {
            Command::Leaf(leaf) => self.leaf(command, leaf),
            Command::CutGo(k, action @ Action::Stores(_)) => self.cut_go(*k, action),
            Command::Cuts(action) => self.cuts(action),
            Command::Poke(_) | Command::Kept(_) | Command::Pages(_) | Command::Second(_) => Err(Fault::Alone),
            Command::Action(Action::Read(page) | Action::Write(page, _)) if far(*page) && *page != u32::MAX => {
                Err(Fault::Alone)
            }
            Command::Action(action) => self.action(action),
            _ => {
                let lines = self.port.run(command).map_err(Fault::Malformed)?;
                self.answer = answer_in(&lines);
                match command {
                    Command::Raw(raw) => self.rust.raw(raw),
                    Command::Make(register, transaction) => self.rust.make(*register, transaction),
                    // A call without stores: where it would be accepted, the store is gone.
                    Command::CutGo(..) if self.port.store().is_none() => self.rust.drop_store(),
                    // Counts, tellings and cuts that change nothing are the port's alone.
                    _ => {}
                }
                Ok(())
            }
        }
    }

    /// The Rust's lines of a transcript after the last command; its files and its store, and where it was not asked the port's refusal.
    pub fn lines(&self) -> String {
        format!("{}{}", self.before, self.rust.lines(&self.answer))
    }
}

// ---- the numbers that document 01 gives

pub(crate) fn sizes_of(files: &Files) -> Sizes {
    let size = |file| files.buffer(file).len();
    Sizes { log: size(File::Log), db: size(File::Database), clog: size(File::Clog), frames: files.frames().len() }
}

impl Pair {
    // Before the command is run: from the buffers' sizes, which a script gives, and from the Rust's side.
    fn foretold(&self, command: &Command) -> Option<String> {
        let (sizes, files, holds) = (sizes_of(self.port.files()), self.rust.bytes(), self.rust.holds());
        Met { reading: &self.reading, sizes, files, holds, registers: &self.registers }.foretold(command)
    }

    fn as_foretold(&mut self, foretold: Option<String>) -> Held {
        let Some(wanted) = foretold else {
            return Ok(());
        };
        self.tally.foretold += 1;
        if self.answer.split(' ').next() == Some(&wanted) {
            return Ok(());
        }
        differ(format!("the port answers {}, document 01 says {wanted}", self.answer))
    }

    // The same of an opening by itself.
    pub(crate) fn opening_foretold(&mut self, files: &Files, left: &[Vec<u8>; 3], answer: &Answer) -> Held {
        let (sizes, registers) = (sizes_of(files), &self.registers);
        let met = Met { reading: &self.reading, sizes, files: left, holds: None, registers };
        let foretold = met.foretold(&Command::Action(Action::Open)).unwrap_or_default();
        self.tally.foretold += 1;
        if answer.to_string() == foretold {
            return Ok(());
        }
        differ(format!("the port answers {answer}, document 01 says {foretold}"))
    }

    fn note_registers(&mut self, command: &Command, handed_out: Option<(u64, Vec<u32>)>) {
        let accepted = self.answer == "0" || self.answer.starts_with("0 ");
        match command {
            Command::Make(register, transaction) => self.registers[*register] = Some(transaction.clone()),
            Command::Action(Action::Install(register)) if accepted => self.registers[*register] = None,
            Command::Action(Action::Uninstall(register)) if accepted => {
                if let Some((id, touched)) = handed_out {
                    self.registers[*register] = Some(Transaction::new(TransactionId(id), &touched));
                }
            }
            _ => {}
        }
    }
}

fn build(files: &mut Files<'static>, raw: &Raw) -> Held {
    match raw {
        Raw::Buffers(sizes) => *files = Files::filled(*sizes, STALE),
        Raw::Append(file, bytes) => files.append(*file, bytes),
        Raw::Shorten(file, len) if *len <= files.len(*file) => files.set_len(*file, *len),
        Raw::Overwrite(file, at, bytes) if at.saturating_add(bytes.len()) <= files.content(*file).len() => {
            files.buffer_mut(*file)[*at..at + bytes.len()].copy_from_slice(bytes);
        }
        Raw::Shorten(..) | Raw::Overwrite(..) => return Err(Fault::Malformed("the file is shorter".to_string())),
    }
    Ok(())
}

fn answer_in(lines: &str) -> String {
    lines.lines().find_map(|line| line.strip_prefix("R ")).unwrap_or_default().to_string()
}

// ---- calls

/// Refused for a reason that the Rust does not have: it is not asked.
pub(crate) fn outside(answer: &Answer) -> bool {
    let own = [Refusal::Torn, Refusal::UnknownTag, Refusal::BadVersion];
    matches!(answer, Answer::Refused(refusal) if !own.contains(refusal))
}

pub(crate) fn same_answer(port: &Answer, rust: &Answer) -> Held {
    if port == rust {
        return Ok(());
    }
    differ(format!("the port answers {port}, the Rust {rust}"))
}

impl Pair {
    fn leaf(&mut self, command: &Command, leaf: &Leaf) -> Held {
        let lines = self.port.run(command).map_err(Fault::Malformed)?;
        self.answer = answer_in(&lines);
        let number: u8 = self.answer.split(' ').next().and_then(|word| word.parse().ok()).unwrap_or_default();
        self.tally.answers[number as usize] += 1;
        if number != 0 && self.beyond != Some(number) {
            return Ok(());
        }
        match self.rust.leaf(leaf)? {
            Some(theirs) if theirs.to_string() != self.answer => {
                differ(format!("the port answers {}, the Rust {theirs}", self.answer))
            }
            _ => Ok(()),
        }
    }

    pub(crate) fn action(&mut self, action: &Action) -> Held {
        let (store, files) = (self.port.store().cloned(), self.port.files().clone());
        let answer = self.port.act(action);
        self.tally.answer(&answer);
        self.answer = answer.to_string();
        if !outside(&answer) || self.goes_beyond(&answer, action) {
            return same_answer(&answer, &self.rust.act(action)?);
        }
        if *action == Action::Open {
            self.rust.drop_store();
        } else if store.as_ref() != self.port.store() {
            return differ(format!("the store is another after the refusal {answer}"));
        }
        if !same_buffers(&files, self.port.files()) {
            return differ(format!("a buffer is another after the refusal {answer}"));
        }
        Ok(())
    }
}

// The Rust makes a list of that many places.
fn far(page: u32) -> bool {
    page > 1 << 20
}

impl Pair {
    fn goes_beyond(&self, answer: &Answer, action: &Action) -> bool {
        let far = matches!(action, Action::Read(page) | Action::Write(page, _) if far(*page));
        !far && matches!(answer, Answer::Refused(refusal) if self.beyond == Some(refusal.number()))
    }
}

fn same_buffers(a: &Files, b: &Files) -> bool {
    let same = |file| a.buffer(file) == b.buffer(file);
    FILES.into_iter().all(same) && a.frames() == b.frames() && a.lengths() == b.lengths()
}

// ---- what the sides show

/// The two sides show the same: every byte of the files, and the store.
pub(crate) fn agree(port: &Executor, rust: &Published) -> Held {
    same_files(port.files(), rust.bytes())?;
    match (port.store(), rust.seen()) {
        (None, None) => Ok(()),
        (Some(store), Some(seen)) => same_store(store, port.files(), &seen),
        (Some(_), None) => differ("the port has a store, the Rust none".to_string()),
        (None, Some(_)) => differ("the Rust has a store, the port none".to_string()),
    }
}

pub(crate) fn same_files(port: &Files, rust: &[Vec<u8>; 3]) -> Held {
    for file in FILES {
        let (ours, theirs) = (port.content(file), &rust[place(file)]);
        if port.len(file) != theirs.len() {
            return differ(format!("{file:?}: the port has {} bytes, the Rust {}", port.len(file), theirs.len()));
        }
        // A file that is longer than its buffer has the rest on the Rust's side alone.
        if ours != &theirs[..ours.len()] {
            let at = ours.iter().zip(theirs).position(|(a, b)| a != b);
            return differ(format!("{file:?}: byte {at:?} is another"));
        }
    }
    Ok(())
}

fn same_store(store: &Store, files: &Files, seen: &Seen) -> Held {
    let ours = (store.pages(), store.next_id().0, store.next_time().0, store.mark().0);
    let theirs = (seen.pages.into(), seen.next, seen.time, seen.mark);
    if ours != theirs {
        return differ(format!("pages, next id, next commit time, mark: the port {ours:?}, the Rust {theirs:?}"));
    }
    if store.entries() != seen.table {
        return differ(format!("table: the port {:?}, the Rust {:?}", store.entries(), seen.table));
    }
    let ours = store.transaction().map(|t| (t.id().0, t.touched().to_vec()));
    if ours != seen.transaction {
        return differ(format!("transaction: the port {ours:?}, the Rust {:?}", seen.transaction));
    }
    same_frames(store, files.frames(), seen)
}

fn same_frames(store: &Store, buffer: &[u8], seen: &Seen) -> Held {
    let mut resident: Vec<_> = store.resident().iter().copied().zip(buffer.chunks_exact(PAGE_BYTES)).collect();
    resident.sort_by_key(|(page, _)| *page);
    let ours: Vec<_> = resident.iter().map(|(page, _)| *page).collect();
    let theirs: Vec<_> = seen.frames.iter().map(|(page, _)| *page).collect();
    if ours != theirs {
        return differ(format!("resident pages: the port {ours:?}, the Rust {theirs:?}"));
    }
    match resident.iter().zip(&seen.frames).find(|((_, a), (_, b))| *a != &b[..]) {
        Some(((page, _), _)) => differ(format!("the frame of page {page} has other bytes")),
        None => Ok(()),
    }
}
