//! Runs the commands of a script on the library.
//!
//! Points that the format leaves open, as they are read here: a raw or a leaf command changes the lengths in an open store too; a refused call cut for good
//! (`cutgo`) keeps its store, as any refusal does; `cut` has the line of the files behind its answer; opening and closing, like the calls that only change memory,
//! have no stores, so their cut shows the files as they are.
use crate::calls::{Call, Telling};
use crate::crc::crc32;
use crate::files::{Files, Sizes};
use crate::leaves::{read_status_pages, Found, Record};
use crate::output::Output;
use crate::refusal::Refusal;
use crate::script::{parse, Action, Command, Kept, Leaf, Malformed, Pages, Poke, Raw, Second, REGISTERS};
use crate::store::Store;
use crate::table::{Entry, Status};
use crate::transaction::Transaction;
use crate::transcript::{self, Answer};
use std::fmt::Write;

/// Every byte of a new buffer, so that stale bytes show.
pub const STALE: u8 = 0xEE;

/// The buffers of a new case.
pub const DEFAULT_SIZES: Sizes = Sizes { log: 65536, db: 65536, clog: 4096, frames: 32768 };

/// Four buffers, three lengths, a store or none, four registers for transactions, and an output, which is a fifth buffer with a length.
#[derive(Clone, Debug)]
pub struct Executor {
    files: Files<'static>,
    store: Option<Store>,
    registers: [Option<Transaction>; REGISTERS],
    output: Output,
}

impl Default for Executor {
    fn default() -> Executor {
        Executor::new()
    }
}

/// The transcript of a whole script.
///
/// ```
/// use nyotmelang::executor::run_script;
/// let transcript = run_script("case one\nopen\nbegin 1\n").unwrap();
/// assert!(transcript.starts_with("case one\nR 0\nS 0 1 1 0 T 0 X - F 0\nD 0 00000000 L 8 be5aa0c5 C 8 13047b2f\n"));
/// ```
pub fn run_script(script: &str) -> Result<String, Malformed> {
    let mut executor = Executor::new();
    let mut transcript = String::new();
    for (line, command) in parse(script)? {
        let text = || script.lines().nth(line - 1).unwrap_or_default().to_string();
        transcript += &executor.run(&command).map_err(|why| Malformed { line, text: text(), why })?;
    }
    Ok(transcript)
}

impl Executor {
    /// As after `case`.
    pub fn new() -> Executor {
        let files = Files::filled(DEFAULT_SIZES, STALE);
        Executor { files, store: None, registers: Default::default(), output: Output::default() }
    }

    /// On these files, with no store.
    pub fn with_files(files: Files<'static>) -> Executor {
        Executor { files, ..Executor::new() }
    }

    pub fn files(&self) -> &Files<'static> {
        &self.files
    }

    pub fn store(&self) -> Option<&Store> {
        self.store.as_ref()
    }

    /// Carries a command out and gives its lines of the transcript; or says why it makes no sense here.
    pub fn run(&mut self, command: &Command) -> Result<String, String> {
        let mut before = String::new();
        let answer = match command {
            Command::Case(name) => {
                *self = Executor::new();
                return Ok(format!("case {name}\n"));
            }
            Command::Raw(raw) => {
                self.raw(raw)?;
                Answer::plain()
            }
            Command::Leaf(leaf) => self.leaf(leaf),
            Command::Kept(kept) => {
                self.kept(kept)?;
                before = transcript::output_line(&self.output);
                Answer::plain()
            }
            Command::Pages(pages) => self.pages(pages, &mut before),
            Command::Second(second) => self.second(second, &mut before),
            Command::Make(register, transaction) => {
                self.registers[*register] = Some(transaction.clone());
                Answer::plain()
            }
            Command::Action(action) => self.act(action),
            Command::Count(action) => self.count(action),
            Command::Told(k, action) => self.told(*k, action),
            Command::Cut(k, action) => self.cut(*k, action),
            Command::CutGo(k, action) => self.cut_go(*k, action),
            Command::Cuts(action) => self.cuts(action, &mut before),
            Command::Poke(poke) => self.poke(poke),
        };
        Ok(before + &transcript::lines(&answer, self.store.as_ref(), &self.files))
    }

    // The store has the lengths that the files were given by hand.
    fn agree(&mut self) {
        if let Some(store) = &mut self.store {
            store.put_lengths(self.files.lengths());
        }
    }
}

// ---- raw files and leaves

impl Executor {
    fn raw(&mut self, raw: &Raw) -> Result<(), String> {
        match raw {
            Raw::Buffers(sizes) => {
                self.files = Files::filled(*sizes, STALE);
                self.store = None;
                self.output = Output::default();
            }
            Raw::Append(file, bytes) => self.files.append(*file, bytes),
            Raw::Shorten(file, len) => {
                if *len > self.files.len(*file) {
                    return Err(format!("the file has {} bytes", self.files.len(*file)));
                }
                self.files.set_len(*file, *len);
            }
            Raw::Overwrite(file, at, bytes) => {
                let content = self.files.content(*file).len();
                let end = at.checked_add(bytes.len()).filter(|end| *end <= content);
                let end = end.ok_or_else(|| format!("the file has {content} bytes"))?;
                self.files.buffer_mut(*file)[*at..end].copy_from_slice(bytes);
            }
        }
        self.agree();
        Ok(())
    }

    fn leaf(&mut self, leaf: &Leaf) -> Answer {
        let files = &mut self.files;
        let done = match leaf {
            Leaf::Read(place) => return Answer::of(files.read_record(*place).map_err(|u| u.refusal), record_text),
            Leaf::Load => files.load_clog().map(|entries| transcript::table(entries.len() as u64, &entries)),
            Leaf::Image(page, bytes) => wordless(files.append_record(&Record::Image { page: *page, bytes })),
            Leaf::Begin(id) => wordless(files.append_record(&Record::Begin(*id))),
            Leaf::Commit(id, time) => wordless(files.append_record(&Record::Commit(*id, *time))),
            Leaf::Abort(id) => wordless(files.append_record(&Record::Abort(*id))),
            Leaf::Checkpoint => wordless(files.append_record(&Record::Checkpoint)),
            Leaf::Truncate => wordless(files.truncate_log()),
            Leaf::Open => wordless(files.open_clog()),
            Leaf::Reset => wordless(files.reset_clog()),
            Leaf::Record(id, status) => wordless(files.record_status(*id, *status)),
            Leaf::Compact(below) => wordless(files.compact_clog(*below)),
        };
        self.agree();
        Answer::of(done, |values| values)
    }
}

fn wordless(done: Result<(), Refusal>) -> Result<String, Refusal> {
    done.map(|()| String::new())
}

fn record_text(found: Option<Found>) -> String {
    let Some(Found { record, next }) = found else {
        return "end".to_string();
    };
    match record {
        Record::Image { page, bytes } => format!("image {page} {:08x} {next}", crc32(bytes)),
        Record::Begin(id) => format!("begin {} {next}", id.0),
        Record::Commit(id, time) => format!("commit {} {} {next}", id.0, time.0),
        Record::Abort(id) => format!("abort {} {next}", id.0),
        Record::Checkpoint => format!("ckpt {next}"),
    }
}

// ---- the output, status pages, and the second form of a clog

impl Executor {
    fn kept(&mut self, kept: &Kept) -> Result<(), String> {
        match kept {
            Kept::New(size) => self.output = Output::filled(*size, STALE),
            Kept::Append(bytes) => self.output.append(bytes),
            Kept::Overwrite(at, bytes) => {
                let content = self.output.content().len();
                let end = at.checked_add(bytes.len()).filter(|end| *end <= content);
                let end = end.ok_or_else(|| format!("the output has {content} bytes"))?;
                self.output.buffer_mut()[*at..end].copy_from_slice(bytes);
            }
        }
        Ok(())
    }

    fn pages(&mut self, pages: &Pages, before: &mut String) -> Answer {
        match pages {
            Pages::Out(mark, size) => self
                .moved(*size, before, |this, out| out.filled_by(|bytes| this.files.write_status_pages(*mark, bytes))),
            Pages::In(size) => self.moved(*size, before, |this, out| {
                out.filled_by(|bytes| read_status_pages(this.output.content(), bytes))
            }),
        }
    }

    fn second(&mut self, second: &Second, before: &mut String) -> Answer {
        let output = &mut self.output;
        let done = match second {
            Second::ToSecond(mark, size) => {
                return self.moved(*size, before, |this, out| this.files.clog_to_second(*mark, out));
            }
            Second::ToFirst(size) => return self.moved(*size, before, |this, out| this.output.to_first(out)),
            Second::Record(id, status) => wordless(output.record_status(*id, *status)),
            Second::Compact(below) => wordless(output.compact(*below)),
            Second::Load => output.load().map(|entries| transcript::table(entries.len() as u64, &entries)),
        };
        *before = transcript::output_line(&self.output);
        Answer::of(done, |values| values)
    }

    // A call is handed a new buffer, which is shown whatever comes of it, and kept where it is accepted.
    fn moved(
        &mut self,
        size: usize,
        before: &mut String,
        call: impl FnOnce(&Executor, &mut Output) -> Result<usize, Refusal>,
    ) -> Answer {
        let mut out = Output::filled(size, STALE);
        let done = call(self, &mut out);
        *before = transcript::output_line(&out);
        if done.is_ok() {
            self.output = out;
        }
        Answer::of(done, |len| len.to_string())
    }
}

// ---- the pager's calls

impl Executor {
    /// Makes a call; its answer, with the values as in a transcript.
    pub fn act(&mut self, action: &Action) -> Answer {
        if *action == Action::Open {
            self.store = None;
            let opened = Store::open(&mut self.files);
            return Answer::of(opened.map(|store| self.store = Some(store)), |()| String::new());
        }
        if *action == Action::Close {
            self.store = None;
            return Answer::plain();
        }
        let Some(store) = &mut self.store else {
            return Answer::NoStore;
        };
        let files = &mut self.files;
        let done = match action {
            Action::Open | Action::Close => return Answer::plain(),
            Action::Stores(call) => wordless(store.call(files, call)),
            Action::AllocateId => store.allocate_id(files).map(|id| id.0.to_string()),
            Action::AllocatePage => store.allocate_page(files).map(|page| page.to_string()),
            Action::Read(page) => store.read_page(files, *page).map(|bytes| format!("{:08x}", crc32(&bytes))),
            Action::Write(page, bytes) => wordless(store.write_page(files, *page, bytes)),
            Action::Table(room) => {
                store.table_within(files, *room).map(|entries| transcript::table(entries.len() as u64, &entries))
            }
            // With no transaction installed the register keeps what it holds.
            Action::Uninstall(register) => store.uninstall(files).map(|handed| match handed {
                Some(transaction) => {
                    let shown = transcript::transaction(&transaction);
                    self.registers[*register] = Some(transaction);
                    shown
                }
                None => "none".to_string(),
            }),
            Action::Install(register) => return self.install(*register),
        };
        Answer::of(done, |values| values)
    }

    // An accepted transaction leaves its register, a refused one stays there.
    fn install(&mut self, register: usize) -> Answer {
        let Some(store) = &mut self.store else {
            return Answer::NoStore;
        };
        let Some(transaction) = self.registers[register].take() else {
            return Answer::NoRegister;
        };
        match store.install(&self.files, transaction) {
            Ok(()) => Answer::plain(),
            Err((refusal, transaction)) => {
                self.registers[register] = Some(transaction);
                Answer::Refused(refusal)
            }
        }
    }

    fn poke(&mut self, poke: &Poke) -> Answer {
        // Files and buffers need no store.
        match poke {
            Poke::FrameBuffer(size) => {
                self.files.resize_frames(*size, STALE);
                return Answer::plain();
            }
            Poke::Length(file, len) => {
                self.files.set_len(*file, *len);
                self.agree();
                return Answer::plain();
            }
            _ => {}
        }
        let Some(store) = &mut self.store else {
            return Answer::NoStore;
        };
        match poke {
            Poke::FrameBuffer(_) | Poke::Length(_, _) => {}
            Poke::Pages(pages) => store.put_pages(*pages),
            Poke::NextId(id) => store.put_next_id(*id),
            Poke::NextTime(time) => store.put_next_time(*time),
            Poke::Mark(mark) => store.put_mark(*mark),
            Poke::Resident(pages) => store.put_resident(pages),
            Poke::Table(ids) => {
                let entries: Vec<_> = ids.iter().map(|id| Entry { id: *id, status: Status::Aborted }).collect();
                store.put_entries(&entries);
            }
            Poke::Transaction(transaction) => store.put_transaction(transaction.as_ref()),
        }
        Answer::plain()
    }
}

// ---- counts, tellings, cuts

impl Executor {
    // The store and the call, where it is one of the five with stores and a store is open.
    fn with_stores<'e, 'a>(&'e self, action: &'a Action) -> Option<(&'e Store, &'a Call)> {
        match (action, &self.store) {
            (Action::Stores(call), Some(store)) => Some((store, call)),
            _ => None,
        }
    }

    // What a call answers that has no stores or is not made; nothing is changed. Where it is accepted these are the values.
    fn without_stores(&self, action: &Action, values: String) -> Answer {
        match self.clone().act(action) {
            Answer::Accepted(_) => Answer::Accepted(values),
            other => other,
        }
    }

    fn count(&self, action: &Action) -> Answer {
        match self.with_stores(action) {
            Some((store, call)) => Answer::of(store.count(&self.files, call), |count| count.to_string()),
            None => self.without_stores(action, "0".to_string()),
        }
    }

    fn told(&self, k: usize, action: &Action) -> Answer {
        let text = |told: Option<Telling>| told.map_or("none".to_string(), |telling| telling.to_string());
        match self.with_stores(action) {
            Some((store, call)) => Answer::of(store.told(&self.files, call, k), text),
            None => self.without_stores(action, text(None)),
        }
    }

    // What the cut leaves in the files stands behind its answer; the state does not change.
    fn cut(&self, k: usize, action: &Action) -> Answer {
        let mut left = self.clone();
        match left.cut_go(k, action) {
            Answer::Accepted(_) => Answer::Accepted(transcript::files_line(&left.files)),
            other => other,
        }
    }

    fn cut_go(&mut self, k: usize, action: &Action) -> Answer {
        let Some((store, call)) = self.with_stores(action) else {
            let answer = self.without_stores(action, String::new());
            if let Answer::Accepted(_) = answer {
                self.store = None;
            }
            return answer;
        };
        let store = store.clone();
        match store.cut(&mut self.files, call, k) {
            Ok(()) => {
                self.store = None;
                Answer::plain()
            }
            Err((refusal, _)) => Answer::Refused(refusal),
        }
    }

    fn cuts(&mut self, action: &Action, before: &mut String) -> Answer {
        let counted = match self.with_stores(action) {
            Some((store, call)) => store.count(&self.files, call).ok(),
            None => matches!(self.without_stores(action, String::new()), Answer::Accepted(_)).then_some(0),
        };
        for k in counted.map_or(0..0, |count| 0..count + 1) {
            let told = match self.told(k, action) {
                Answer::Accepted(told) if told != "none" => told,
                _ => "- 0 0".to_string(),
            };
            let mut left = self.clone();
            left.cut_go(k, action);
            let _ = writeln!(before, "B {k} {told} {}", transcript::files_line(&left.files));
        }
        self.act(action)
    }
}
