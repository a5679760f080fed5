//! Scripts: plain text, one command to a line, an opcode and decimal numbers (bytes in hex). Blank lines and lines that begin with `#` are skipped.
use crate::bytes::{put_half, put_word};
use crate::calls::Call;
use crate::files::{File, Page, Sizes, PAGE_BYTES};
use crate::table::{CommitTime, Status, TransactionId};
use crate::transaction::Transaction;
use std::fmt;
use std::str::SplitWhitespace;

/// The most bytes that a script may ask for at once; the library refuses buffers far below that.
const MOST_BYTES: usize = 1 << 28;

/// The most entries that a script may ask room for.
const MOST_ENTRIES: usize = 1 << 16;

pub const REGISTERS: usize = 4;

#[derive(Clone, Debug, PartialEq, Eq)]
pub enum Command {
    Case(String),
    Raw(Raw),
    Leaf(Leaf),
    Kept(Kept),
    Pages(Pages),
    Second(Second),
    Make(usize, Transaction),
    Action(Action),
    Count(Action),
    Told(usize, Action),
    Cut(usize, Action),
    CutGo(usize, Action),
    Cuts(Action),
    Poke(Poke),
}

/// Files built by hand.
#[derive(Clone, Debug, PartialEq, Eq)]
pub enum Raw {
    Buffers(Sizes),
    Append(File, Vec<u8>),
    Shorten(File, usize),
    Overwrite(File, usize, Vec<u8>),
}

/// Log and clog by themselves.
#[derive(Clone, Debug, PartialEq, Eq)]
pub enum Leaf {
    Read(usize),
    Image(u32, Box<Page>),
    Begin(TransactionId),
    Commit(TransactionId, CommitTime),
    Abort(TransactionId),
    Checkpoint,
    Truncate,
    Open,
    Reset,
    Record(TransactionId, Status),
    Compact(TransactionId),
    Load,
}

/// The output kept, built by hand.
#[derive(Clone, Debug, PartialEq, Eq)]
pub enum Kept {
    New(usize),
    Append(Vec<u8>),
    Overwrite(usize, Vec<u8>),
}

/// Status pages, put into a new output: the clog's, under a mark, and the body of those that are kept.
#[derive(Clone, Debug, PartialEq, Eq)]
pub enum Pages {
    Out(TransactionId, usize),
    In(usize),
}

/// The second form of a clog: moves into a new output, and calls on the one kept.
#[derive(Clone, Debug, PartialEq, Eq)]
pub enum Second {
    ToSecond(TransactionId, usize),
    ToFirst(usize),
    Record(TransactionId, Status),
    Compact(TransactionId),
    Load,
}

/// The pager's calls.
#[derive(Clone, Debug, PartialEq, Eq)]
pub enum Action {
    Open,
    Close,
    Stores(Call),
    AllocateId,
    AllocatePage,
    Read(u32),
    Write(u32, Box<Page>),
    Uninstall(usize),
    Install(usize),
    Table(usize),
}

/// A value put into the store.
#[derive(Clone, Debug, PartialEq, Eq)]
pub enum Poke {
    Length(File, usize),
    FrameBuffer(usize),
    Pages(u32),
    NextId(TransactionId),
    NextTime(CommitTime),
    Mark(TransactionId),
    Resident(Vec<u32>),
    Table(Vec<TransactionId>),
    Transaction(Option<Transaction>),
}

/// A line that is no command, or a command that cannot be carried out as it stands.
#[derive(Clone, Debug, PartialEq, Eq)]
pub struct Malformed {
    pub line: usize,
    pub text: String,
    pub why: String,
}

impl fmt::Display for Malformed {
    fn fmt(&self, f: &mut fmt::Formatter<'_>) -> fmt::Result {
        write!(f, "line {}: {}: {}", self.line, self.text, self.why)
    }
}

impl std::error::Error for Malformed {}

/// The commands of a script, each with the number of its line.
///
/// ```
/// use nyotmelang::script::{parse, Action, Command};
/// let commands = parse("# a store is opened\n\nopen\n").unwrap();
/// assert_eq!(commands, [(3, Command::Action(Action::Open))]);
/// assert_eq!(parse("open 1").unwrap_err().line, 1);
/// ```
pub fn parse(script: &str) -> Result<Vec<(usize, Command)>, Malformed> {
    let mut commands = Vec::new();
    for (i, text) in script.lines().enumerate() {
        let parsed = parse_line(text).map_err(|why| Malformed { line: i + 1, text: text.to_string(), why })?;
        commands.extend(parsed.map(|command| (i + 1, command)));
    }
    Ok(commands)
}

/// The command of a line; none where it is skipped, and otherwise what is wrong with it.
pub fn parse_line(text: &str) -> Result<Option<Command>, String> {
    if text.trim().is_empty() || text.starts_with('#') {
        return Ok(None);
    }
    let mut words = Words(text.split_whitespace());
    let opcode = words.next()?;
    let command = words.command(opcode)?;
    words.end()?;
    Ok(Some(command))
}

/// The page of a seed.
pub fn page_of(seed: u64) -> Box<Page> {
    let mut page = Box::new([0; PAGE_BYTES]);
    for (i, byte) in page.iter_mut().enumerate() {
        *byte = (seed as u8).wrapping_add((7 * i + 13 * (i / 256)) as u8);
    }
    page
}

/// A meta page of any version.
pub fn meta_of(next: u64, time: u64, mark: u64, version: u32) -> Box<Page> {
    let mut page = Box::new([0; PAGE_BYTES]);
    page[..8].copy_from_slice(b"AERODBM1");
    for (i, value) in [next, time, mark].into_iter().enumerate() {
        put_word(&mut page[..], 8 + 8 * i, value);
    }
    put_half(&mut page[..], 32, version);
    page
}

// ---- the words of a line

struct Words<'a>(SplitWhitespace<'a>);

type Parsed<T> = Result<T, String>;

impl<'a> Words<'a> {
    fn next(&mut self) -> Parsed<&'a str> {
        self.0.next().ok_or_else(|| "a word is missing".to_string())
    }

    fn end(&mut self) -> Parsed<()> {
        self.0.next().map_or(Ok(()), |word| Err(format!("{word} is one word too many")))
    }

    // Digits alone: no sign, which parse would take.
    fn number<T: TryFrom<u64>>(word: &str) -> Parsed<T> {
        let digits = word.bytes().all(|b| b.is_ascii_digit());
        let value = word.parse::<u64>().ok().filter(|_| digits);
        value.and_then(|v| T::try_from(v).ok()).ok_or_else(|| format!("{word} is no number in its range"))
    }

    fn num<T: TryFrom<u64>>(&mut self) -> Parsed<T> {
        Words::number(self.next()?)
    }

    fn id(&mut self) -> Parsed<TransactionId> {
        Ok(TransactionId(self.num()?))
    }

    fn upto(&mut self, most: usize) -> Parsed<usize> {
        let value = self.num()?;
        if value > most {
            return Err(format!("{value} is more than {most}"));
        }
        Ok(value)
    }

    fn rest<T: TryFrom<u64>>(&mut self) -> Parsed<Vec<T>> {
        self.0.by_ref().map(Words::number).collect()
    }

    fn hex(&mut self) -> Parsed<Vec<u8>> {
        let word = self.next()?;
        let wrong = || format!("{word} is not bytes in hex");
        if word.len() % 2 != 0 || !word.bytes().all(|b| b.is_ascii_hexdigit()) {
            return Err(wrong());
        }
        (0..word.len()).step_by(2).map(|i| u8::from_str_radix(&word[i..i + 2], 16).map_err(|_| wrong())).collect()
    }

    fn page(&mut self) -> Parsed<Box<Page>> {
        Ok(page_of(self.num()?))
    }

    fn meta(&mut self) -> Parsed<Box<Page>> {
        Ok(meta_of(self.num()?, self.num()?, self.num()?, self.num()?))
    }

    fn register(&mut self) -> Parsed<usize> {
        self.upto(REGISTERS - 1)
    }

    fn transaction(&mut self) -> Parsed<Transaction> {
        let id = self.id()?;
        Ok(Transaction::new(id, &self.rest::<u32>()?))
    }
}

// ---- commands

impl Words<'_> {
    fn command(&mut self, opcode: &str) -> Parsed<Command> {
        Ok(match opcode {
            "case" => Command::Case(self.next()?.to_string()),
            "mktx" => Command::Make(self.register()?, self.transaction()?),
            "count" => Command::Count(self.asked()?),
            "told" => Command::Told(self.num()?, self.asked()?),
            "cut" => Command::Cut(self.num()?, self.asked()?),
            "cutgo" => Command::CutGo(self.num()?, self.asked()?),
            "cuts" => Command::Cuts(self.asked()?),
            "poke" => Command::Poke(self.poke()?),
            _ => {
                if let Some(raw) = self.raw(opcode)? {
                    Command::Raw(raw)
                } else if let Some(leaf) = self.leaf(opcode)? {
                    Command::Leaf(leaf)
                } else if let Some(kept) = self.kept(opcode)? {
                    Command::Kept(kept)
                } else if let Some(pages) = self.pages(opcode)? {
                    Command::Pages(pages)
                } else if let Some(second) = self.second(opcode)? {
                    Command::Second(second)
                } else {
                    Command::Action(self.action(opcode)?)
                }
            }
        })
    }

    fn raw(&mut self, opcode: &str) -> Parsed<Option<Raw>> {
        let append = |bytes: Vec<u8>| Raw::Append(File::Log, bytes);
        Ok(Some(match opcode {
            "buf" => Raw::Buffers(self.sizes()?),
            "xl" => Raw::Append(File::Log, self.hex()?),
            "xc" => Raw::Append(File::Clog, self.hex()?),
            "xd" => Raw::Append(File::Database, self.hex()?),
            "xlmagic" => append(b"AEROWAL2".to_vec()),
            "xcmagic" => Raw::Append(File::Clog, b"AEROCLG1".to_vec()),
            "xlimg" => append(image(self.num()?, &*self.page()?)),
            "xlmeta" => append(image(self.num()?, &*self.meta()?)),
            "xlbegin" => append(tagged(2, &[self.num()?])),
            "xlcommit" => append(tagged(3, &[self.num()?, self.num()?])),
            "xlabort" => append(tagged(4, &[self.num()?])),
            "xlckpt" => append(tagged(5, &[])),
            "xdpage" => Raw::Append(File::Database, self.page()?.to_vec()),
            "xdmeta" => Raw::Append(File::Database, self.meta()?.to_vec()),
            "xdzero" => Raw::Append(File::Database, vec![0; self.upto(MOST_BYTES)?]),
            "xlcut" => Raw::Shorten(File::Log, self.num()?),
            "xccut" => Raw::Shorten(File::Clog, self.num()?),
            "xdcut" => Raw::Shorten(File::Database, self.num()?),
            "xlset" => Raw::Overwrite(File::Log, self.num()?, self.hex()?),
            "xcset" => Raw::Overwrite(File::Clog, self.num()?, self.hex()?),
            "xdset" => Raw::Overwrite(File::Database, self.num()?, self.hex()?),
            _ => return Ok(None),
        }))
    }

    // In the order of the command's words: log, clog, database, frames.
    fn sizes(&mut self) -> Parsed<Sizes> {
        let (log, clog) = (self.upto(MOST_BYTES)?, self.upto(MOST_BYTES)?);
        Ok(Sizes { log, clog, db: self.upto(MOST_BYTES)?, frames: self.upto(MOST_BYTES)? })
    }

    fn leaf(&mut self, opcode: &str) -> Parsed<Option<Leaf>> {
        Ok(Some(match opcode {
            "lread" => Leaf::Read(self.num()?),
            "lapp" => self.record()?,
            "ltrunc" => Leaf::Truncate,
            "copen" => Leaf::Open,
            "creset" => Leaf::Reset,
            "crec" => Leaf::Record(self.id()?, self.status()?),
            "ccomp" => Leaf::Compact(self.id()?),
            "cload" => Leaf::Load,
            _ => return Ok(None),
        }))
    }

    fn kept(&mut self, opcode: &str) -> Parsed<Option<Kept>> {
        Ok(Some(match opcode {
            "xobuf" => Kept::New(self.upto(MOST_BYTES)?),
            "xo" => Kept::Append(self.hex()?),
            "xozero" => Kept::Append(vec![0; self.upto(MOST_BYTES)?]),
            "xoset" => Kept::Overwrite(self.num()?, self.hex()?),
            _ => return Ok(None),
        }))
    }

    fn pages(&mut self, opcode: &str) -> Parsed<Option<Pages>> {
        Ok(Some(match opcode {
            "pgout" => Pages::Out(self.id()?, self.upto(MOST_BYTES)?),
            "pgin" => Pages::In(self.upto(MOST_BYTES)?),
            _ => return Ok(None),
        }))
    }

    fn second(&mut self, opcode: &str) -> Parsed<Option<Second>> {
        Ok(Some(match opcode {
            "second" => Second::ToSecond(self.id()?, self.upto(MOST_BYTES)?),
            "first" => Second::ToFirst(self.upto(MOST_BYTES)?),
            "srec" => Second::Record(self.id()?, self.status()?),
            "scomp" => Second::Compact(self.id()?),
            "sload" => Second::Load,
            _ => return Ok(None),
        }))
    }

    fn record(&mut self) -> Parsed<Leaf> {
        Ok(match self.next()? {
            "image" => Leaf::Image(self.num()?, self.page()?),
            "begin" => Leaf::Begin(self.id()?),
            "commit" => Leaf::Commit(self.id()?, CommitTime(self.num()?)),
            "abort" => Leaf::Abort(self.id()?),
            "ckpt" => Leaf::Checkpoint,
            word => return Err(format!("{word} is no record")),
        })
    }

    fn status(&mut self) -> Parsed<Status> {
        Ok(match self.next()? {
            "I" => Status::Active,
            "C" => Status::Committed(CommitTime(self.num()?)),
            "A" => Status::Aborted,
            word => return Err(format!("{word} is no status")),
        })
    }

    fn asked(&mut self) -> Parsed<Action> {
        let opcode = self.next()?;
        self.action(opcode)
    }

    fn action(&mut self, opcode: &str) -> Parsed<Action> {
        Ok(match opcode {
            "open" => Action::Open,
            "close" => Action::Close,
            "begin" => Action::Stores(Call::Begin(self.id()?)),
            "flush" => Action::Stores(Call::Flush(self.num()?)),
            "commit" => Action::Stores(Call::Commit),
            "rollback" => Action::Stores(Call::Rollback(self.rest()?)),
            "advance" => Action::Stores(Call::Advance(self.id()?)),
            "alloctx" => Action::AllocateId,
            "allocpage" => Action::AllocatePage,
            "read" => Action::Read(self.num()?),
            "write" => Action::Write(self.num()?, self.page()?),
            "writemeta" => Action::Write(self.num()?, self.meta()?),
            "uninstall" => Action::Uninstall(self.register()?),
            "install" => Action::Install(self.register()?),
            "table" => Action::Table(self.upto(MOST_ENTRIES)?),
            _ => return Err(format!("{opcode} is no command")),
        })
    }

    fn poke(&mut self) -> Parsed<Poke> {
        Ok(match self.next()? {
            "loglen" => Poke::Length(File::Log, self.num()?),
            "cloglen" => Poke::Length(File::Clog, self.num()?),
            "dblen" => Poke::Length(File::Database, self.num()?),
            "framebuf" => Poke::FrameBuffer(self.upto(MOST_BYTES)?),
            "pages" => Poke::Pages(self.num()?),
            "next" => Poke::NextId(self.id()?),
            "commit" => Poke::NextTime(CommitTime(self.num()?)),
            "mark" => Poke::Mark(self.id()?),
            "frames" => Poke::Resident(self.rest()?),
            "table" => Poke::Table(self.rest()?.into_iter().map(TransactionId).collect()),
            "tx" => Poke::Transaction(Some(self.transaction()?)),
            "notx" => Poke::Transaction(None),
            word => return Err(format!("{word} is nothing to poke")),
        })
    }
}

// ---- the bytes of records, written with no check at all

fn tagged(tag: u8, values: &[u64]) -> Vec<u8> {
    let mut record = vec![tag];
    record.extend(values.iter().flat_map(|value| value.to_le_bytes()));
    record
}

fn image(page: u32, bytes: &Page) -> Vec<u8> {
    let mut record = vec![1];
    record.extend(page.to_le_bytes());
    record.extend(bytes);
    record
}
