// Runs the published pager on the calls of calls.rs.
//   after each call a line: its name, 0 for accepted, the lengths of log, database and clog
mod calls;
mod storage {
    pub mod page;
    pub mod pager;
}
mod transaction {
    pub mod clog;
    pub mod session;
    pub mod state;
    pub mod tx_table;
    pub mod wal;
    pub use session::*;
    pub use state::*;
    pub use tx_table::*;
}

use storage::pager::Pager;
use transaction::{IsolationLevel, Snapshot};

pub fn sum(bytes: &[u8]) -> u64 {
    bytes.iter().fold(7, |s, b| (s * 31 + *b as u64) % 65521)
}

pub struct Run {
    name: String,
    pub pager: Pager,
}

impl Run {
    pub fn open(name: String) -> std::io::Result<Run> {
        Ok(Run { pager: Pager::new(&name)?, name })
    }

    pub fn bytes(&self, ending: &str) -> Vec<u8> {
        std::fs::read(format!("{}{}", self.name, ending)).expect("a file of the store")
    }

    pub fn line(&self, what: &str) {
        println!("{} 0 {} {} {}", what, self.bytes(".wal").len(), self.bytes("").len(), self.bytes(".clog").len());
    }

    pub fn begin(&self, id: u64) -> std::io::Result<()> {
        self.pager.begin_transaction(id, Snapshot::new(id, vec![]), None, IsolationLevel::Snapshot)?;
        self.line(&format!("begin {id}"));
        Ok(())
    }
}

fn main() -> std::io::Result<()> {
    calls::run(std::env::args().nth(1).expect("the store's name"))
}
