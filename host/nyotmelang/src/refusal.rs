//! Why a call was refused.
use std::fmt;

/// One refusal for each number that a call can be refused with. A refused call changes no byte and no length, with one exception: an opening that is refused by
/// [`Torn`](Refusal::Torn) or [`UnknownTag`](Refusal::UnknownTag) has laid the images before the bad record into the database.
///
/// ```
/// use nyotmelang::Refusal;
/// assert_eq!(Refusal::LogFull.number(), 4);
/// assert_eq!(Refusal::from_number(4), Some(Refusal::LogFull));
/// assert_eq!(Refusal::from_number(0), None); // accepted
/// assert_eq!(Refusal::from_number(15), None); // no call has it
/// ```
#[derive(Clone, Copy, Debug, PartialEq, Eq, Hash)]
#[repr(u8)]
pub enum Refusal {
    /// A buffer over its limit, a length over its buffer, a reading place past the length, or a clog under its header.
    Unfit = 1,
    /// A log record's tag is there and its fields are cut short.
    Torn = 2,
    /// A record's tag is not 1 to 5.
    UnknownTag = 3,
    /// The log would outgrow its buffer.
    LogFull = 4,
    /// The database would outgrow its buffer.
    DatabaseFull = 5,
    /// The clog would outgrow its buffer.
    ClogFull = 6,
    /// The table would pass 256 entries.
    TableFull = 7,
    /// A frame is needed and all are taken.
    FramesFull = 8,
    /// Install while a transaction is installed.
    Occupied = 9,
    /// The page number 4,294,967,295, or a page is allocated when the page count is that.
    BadPage = 10,
    /// A 65th touched page.
    TouchedFull = 11,
    /// The format version is neither 0 nor 2.
    BadVersion = 12,
    /// The slice for what is handed out, a table, pages or a clog that is moved, is too short.
    SliceShort = 13,
    /// A store or transaction value out of form.
    OutOfForm = 14,
    /// Status pages: the clog has an Active slot at or above the mark.
    ActiveAbove = 19,
    /// Status pages: a 3, which is sub-committed, in the input.
    SubCommitted = 20,
    /// Status pages: the input is not whole pages.
    PartOfPage = 21,
    /// A slot below the base is not 0, where a clog is to be moved to its second form.
    SlotBelowBase = 22,
    /// A magic, length, version or base that does not fit the form of a clog, or a base over its limit.
    BadForm = 23,
    /// Recording an id below the base.
    IdBelowBase = 24,
}

use Refusal::*;

/// Every refusal, ascending by its number.
pub const REFUSALS: [Refusal; 20] = [
    Unfit,
    Torn,
    UnknownTag,
    LogFull,
    DatabaseFull,
    ClogFull,
    TableFull,
    FramesFull,
    Occupied,
    BadPage,
    TouchedFull,
    BadVersion,
    SliceShort,
    OutOfForm,
    ActiveAbove,
    SubCommitted,
    PartOfPage,
    SlotBelowBase,
    BadForm,
    IdBelowBase,
];

impl Refusal {
    /// The number that the library answers.
    pub fn number(self) -> u8 {
        self as u8
    }

    /// The refusal with this number; none for 0, which is an acceptance, and for a number that no refusal has.
    pub fn from_number(number: u8) -> Option<Refusal> {
        REFUSALS.into_iter().find(|refusal| refusal.number() == number)
    }

    // The library's answer as a result. It is proved to answer no other number.
    pub(crate) fn check(number: u8) -> Result<(), Refusal> {
        match Refusal::from_number(number) {
            None if number == 0 => Ok(()),
            None => unreachable!("the library answered {number}"),
            Some(refusal) => Err(refusal),
        }
    }

    fn words(self) -> &'static str {
        match self {
            Unfit => "a buffer over its limit, a length over its buffer, or a place past the length",
            Torn => "a log record is cut short",
            UnknownTag => "a log record has no known tag",
            LogFull => "the log would outgrow its buffer",
            DatabaseFull => "the database would outgrow its buffer",
            ClogFull => "the clog would outgrow its buffer",
            TableFull => "the table would pass 256 entries",
            FramesFull => "a frame is needed and all are taken",
            Occupied => "a transaction is installed already",
            BadPage => "no page has the number 4294967295",
            TouchedFull => "a transaction holds at most 64 touched pages",
            BadVersion => "the format version is neither 0 nor 2",
            SliceShort => "the slice for what is handed out is too short",
            OutOfForm => "the store or the transaction is out of form",
            ActiveAbove => "the clog has an Active slot at or above the mark",
            SubCommitted => "a status in the pages is sub-committed",
            PartOfPage => "the input is not whole pages",
            SlotBelowBase => "a slot below the base is not 0",
            BadForm => "a magic, length, version or base does not fit",
            IdBelowBase => "an id below the base has no slot",
        }
    }
}

impl fmt::Display for Refusal {
    fn fmt(&self, f: &mut fmt::Formatter<'_>) -> fmt::Result {
        write!(f, "refused with {}: {}", self.number(), self.words())
    }
}

impl std::error::Error for Refusal {}
