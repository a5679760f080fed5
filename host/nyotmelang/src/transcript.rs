//! Transcripts: what a command answered and what it left, four lines to a command.
use crate::crc::crc32;
use crate::files::{File, Files, PAGE_BYTES};
use crate::output::Output;
use crate::refusal::Refusal;
use crate::store::Store;
use crate::table::Entry;
use crate::transaction::Transaction;
use std::fmt::{self, Display, Write};

/// What came of a command: accepted with its values, refused, or not asked of the library at all.
#[derive(Clone, Debug, PartialEq, Eq)]
pub enum Answer {
    Accepted(String),
    Refused(Refusal),
    NoStore,
    NoRegister,
}

impl Answer {
    /// Accepted, with no values.
    pub fn plain() -> Answer {
        Answer::Accepted(String::new())
    }

    pub fn of<T>(result: Result<T, Refusal>, values: impl FnOnce(T) -> String) -> Answer {
        result.map_or_else(Answer::Refused, |value| Answer::Accepted(values(value)))
    }
}

impl Display for Answer {
    fn fmt(&self, f: &mut fmt::Formatter<'_>) -> fmt::Result {
        match self {
            Answer::Accepted(values) if values.is_empty() => f.write_str("0"),
            Answer::Accepted(values) => write!(f, "0 {values}"),
            Answer::Refused(refusal) => write!(f, "{}", refusal.number()),
            Answer::NoStore => f.write_str("nostore"),
            Answer::NoRegister => f.write_str("noreg"),
        }
    }
}

/// The four lines after a command.
pub fn lines(answer: &Answer, store: Option<&Store>, files: &Files) -> String {
    format!("R {answer}\n{}\n{}\n{}\n", store_line(store, files), files_line(files), buffers_line(files))
}

/// `S PAGES NEXT COMMIT MARK T table X tx F frames`, or `S -` with no store.
pub fn store_line(store: Option<&Store>, files: &Files) -> String {
    let Some(s) = store else {
        return "S -".to_string();
    };
    format!(
        "S {} {} {} {} T {} X {} F {}",
        s.pages(),
        s.next_id().0,
        s.next_time().0,
        s.mark().0,
        table(s.entry_count(), &s.entries()),
        s.held().map_or("-".to_string(), |id| format!("{} {}", id.0, spaced(s.touched_count(), &s.touched()))),
        frames(s, files.frames()),
    )
}

/// `D dblen crc L loglen crc C cloglen crc`: the files, up to their lengths.
pub fn files_line(files: &Files) -> String {
    let mut line = String::new();
    for (letter, file) in [('D', File::Database), ('L', File::Log), ('C', File::Clog)] {
        let _ = write!(line, "{letter} {} {:08x} ", files.len(file), crc32(files.content(file)));
    }
    line.trim_end().to_string()
}

/// `P db log clog frames`: the whole buffers.
pub fn buffers_line(files: &Files) -> String {
    let crc = |file| crc32(files.buffer(file));
    let (db, log, clog) = (crc(File::Database), crc(File::Log), crc(File::Clog));
    format!("P {db:08x} {log:08x} {clog:08x} {:08x}", crc32(files.frames()))
}

/// `O length crc whole`: an output up to its length, and its whole buffer.
pub fn output_line(output: &Output) -> String {
    format!("O {} {:08x} {:08x}\n", output.len(), crc32(output.content()), crc32(output.buffer()))
}

/// How many entries, and each of them. A count that was poked past the table's places tells more than there are.
pub fn table(count: u64, entries: &[Entry]) -> String {
    spaced(count, entries)
}

/// `ID n P1..Pn`.
pub fn transaction(t: &Transaction) -> String {
    format!("{} {}", t.id().0, spaced(t.touched().len() as u64, t.touched()))
}

// How many frames, and each as `page:crc`, ascending by page number and not by slot.
fn frames(store: &Store, buffer: &[u8]) -> String {
    let mut resident: Vec<_> = store.resident().iter().enumerate().map(|(slot, page)| (*page, slot)).collect();
    resident.sort();
    let shown: Vec<_> = resident
        .into_iter()
        .map(|(page, slot)| {
            let from = (PAGE_BYTES * slot).min(buffer.len());
            let to = (from + PAGE_BYTES).min(buffer.len());
            format!("{page}:{:08x}", crc32(&buffer[from..to]))
        })
        .collect();
    spaced(store.resident_count(), &shown)
}

fn spaced<T: Display>(count: u64, things: &[T]) -> String {
    let mut line = count.to_string();
    for thing in things {
        let _ = write!(line, " {thing}");
    }
    line
}
