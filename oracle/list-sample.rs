// write DB LOG: has the published log write begin 5, commit (5, 9), begin 7 to LOG.
// open ONE TWO: opens the store ONE with the published pager and writes the lines of the program listing. The pager does not tell its next commit time: the store
// TWO, which must be a copy of ONE, commits a transaction, and the time that it gets is that one.
mod storage {
    pub mod page;
    pub mod pager;
}
mod transaction {
    pub mod clog;
    pub mod session;
    pub mod state;
    pub mod tx_table;
    pub mod wal;
    pub use session::*;
    pub use state::*;
    pub use tx_table::*;
}

use storage::pager::Pager;
use transaction::wal::Wal;
use transaction::TransactionStatus::{Aborted, Active, Committed};
use transaction::{IsolationLevel, Snapshot};

fn write(db: &str, log: &str) -> std::io::Result<()> {
    let mut db = std::fs::OpenOptions::new().read(true).write(true).create(true).truncate(true).open(db)?;
    let (mut wal, _) = Wal::open(log, &mut db)?;
    wal.append_tx_status(5, Active)?;
    wal.append_tx_status(5, Committed(9))?;
    wal.append_tx_status(7, Active)
}

fn next_time(name: &str) -> std::io::Result<u64> {
    let pager = Pager::new(name)?;
    pager.begin_transaction(1000, Snapshot::new(1000, vec![]), None, IsolationLevel::Snapshot)?;
    pager.commit_transaction()?;
    match pager.transaction_table()[&1000] {
        Committed(time) => Ok(time),
        _ => panic!("a committed transaction has a time"),
    }
}

fn open(one: &str, two: &str) -> std::io::Result<()> {
    let time = next_time(two)?;
    let pager = Pager::new(one)?;
    println!("open 0");
    println!("pages {}", pager.num_pages());
    println!("next {}", pager.peek_next_transaction_id());
    println!("commit {time}");
    println!("frozen {}", pager.frozen_xid());
    let mut table: Vec<_> = pager.transaction_table().into_iter().collect();
    table.sort_by_key(|entry| entry.0);
    for (id, status) in table {
        match status {
            Active => println!("{id} active"),
            Committed(time) => println!("{id} C {time}"),
            Aborted => println!("{id} A"),
        }
    }
    println!("log {}", std::fs::metadata(format!("{one}.wal"))?.len());
    println!("clog {}", std::fs::metadata(format!("{one}.clog"))?.len());
    Ok(())
}

fn main() -> std::io::Result<()> {
    let args: Vec<String> = std::env::args().collect();
    match args[1].as_str() {
        "write" => write(&args[2], &args[3]),
        _ => open(&args[2], &args[3]),
    }
}
