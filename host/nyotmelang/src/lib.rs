//! A safe wrapper around the proved storage layer. [`Files`] has the buffers, [`Store`] what is remembered beside them; every call of the library is a method
//! of one of the two, and a refusal is a [`Refusal`]. [`script`], [`executor`] and [`transcript`] run scripts of calls in-process, as the program `replay` does;
//! [`disk`] keeps the three files on disk, as the program `carry` does.
//!
//! ```
//! use nyotmelang::{Call, Files, Refusal, Sizes, Store, TransactionId};
//! # fn main() -> Result<(), Refusal> {
//! let mut files = Files::new(Sizes { log: 65536, db: 65536, clog: 4096, frames: 32768 });
//! let mut store = Store::open(&mut files)?;
//! store.begin(&mut files, TransactionId(1))?;
//! store.write_page(&mut files, 1, &[1; 4096])?;
//! store.flush(&mut files, 1)?;
//! assert_eq!(store.count(&files, &Call::Commit)?, 7);
//! store.commit(&mut files)?;
//! assert_eq!(store.flush(&mut files, u32::MAX), Err(Refusal::BadPage));
//! # Ok(())
//! # }
//! ```
#![deny(unsafe_code)]

mod bytes;
mod calls;
mod crc;
pub mod disk;
pub mod emulated;
pub mod executor;
mod files;
pub mod layer;
mod leaves;
mod lock;
mod output;
mod port;
mod refusal;
pub mod script;
mod second;
mod store;
mod table;
mod transaction;
pub mod transcript;

pub use calls::{Call, Kind, Telling};
pub use crc::crc32;
pub use files::{File, Files, Lengths, Page, Sizes, PAGE_BYTES};
pub use leaves::{put_meta, read_status_pages, Counters, Found, Record, Unread, STATUS_PAGE_BYTES};
pub use output::Output;
pub use refusal::{Refusal, REFUSALS};
pub use store::{Store, Words, FRAMES_LIMIT};
pub use table::{CommitTime, Entry, Row, Status, TransactionId, TABLE_LIMIT};
pub use transaction::{Transaction, TOUCHED_LIMIT};
