//! Deliberate mistakes, put on the Rust's side: under each of them the comparison must find a difference.
use crate::rust::Seen;
use nyotmelang::transcript::Answer;
use nyotmelang::Refusal;

#[derive(Clone, Copy, Debug, PartialEq, Eq)]
pub enum Wrong {
    Pages,
    Next,
    Time,
    Mark,
    Entry,
    EntryTime,
    Touched,
    Frame,
    FrameByte,
    LogByte,
    DatabaseByte,
    ClogByte,
    Length,
    TornAsUnknown,
    Value,
    LateCrash,
    EarlyCrash,
    LostWrite,
}

use Wrong::*;

pub const WRONGS: [(&str, Wrong); 18] = [
    ("pages", Pages),
    ("next", Next),
    ("time", Time),
    ("mark", Mark),
    ("entry", Entry),
    ("entry-time", EntryTime),
    ("touched", Touched),
    ("frame", Frame),
    ("frame-byte", FrameByte),
    ("log-byte", LogByte),
    ("database-byte", DatabaseByte),
    ("clog-byte", ClogByte),
    ("length", Length),
    ("torn-as-unknown", TornAsUnknown),
    ("value", Value),
    ("late-crash", LateCrash),
    ("early-crash", EarlyCrash),
    ("lost-write", LostWrite),
];

impl Wrong {
    pub fn named(name: &str) -> Option<Wrong> {
        WRONGS.iter().find(|(own, _)| *own == name).map(|(_, wrong)| *wrong)
    }

    pub(crate) fn bend_store(self, seen: &mut Seen) {
        match self {
            Pages => seen.pages += 1,
            Next => seen.next = seen.next.wrapping_add(1),
            Time => seen.time = seen.time.wrapping_add(1),
            Mark => seen.mark ^= 1,
            Entry => drop(seen.table.pop()),
            EntryTime => {
                let committed = seen.table.iter_mut().filter_map(|entry| match &mut entry.status {
                    nyotmelang::Status::Committed(time) => Some(time),
                    _ => None,
                });
                committed.for_each(|time| time.0 ^= 1);
            }
            Touched => seen.transaction.iter_mut().for_each(|(_, touched)| touched.truncate(1)),
            Frame => drop(seen.frames.pop()),
            FrameByte => seen.frames.iter_mut().for_each(|(_, bytes)| bytes[4095] ^= 1),
            _ => {}
        }
    }

    pub(crate) fn bend_files(self, files: &mut [Vec<u8>; 3]) {
        let place = match self {
            LogByte => 0,
            DatabaseByte | Length => 1,
            ClogByte => 2,
            _ => return,
        };
        match self {
            Length => files[place].push(0),
            _ => files[place].last_mut().into_iter().for_each(|byte| *byte ^= 1),
        }
    }

    pub(crate) fn bend_answer(self, answer: Answer) -> Answer {
        match (self, answer) {
            (TornAsUnknown, Answer::Refused(Refusal::Torn)) => Answer::Refused(Refusal::UnknownTag),
            (Value, Answer::Accepted(values)) if !values.is_empty() => Answer::Accepted(values + "1"),
            (_, answer) => answer,
        }
    }
}
