// Has the published log write one record of each kind: an image of page 3, begin 5, commit (5, 9), abort 7, a checkpoint.
// Tells on standard output where each record came to stand, by the file's length before and after it.
// Byte i of the page is (17 + 7 i + 13 (i div 256)) mod 256.
mod storage {
    pub mod page;
}

mod transaction {
    pub mod state;
    pub mod tx_table;
    pub mod wal;
    pub use state::TransactionId;
    pub use tx_table::{CommitTimestamp, TransactionStatus, TransactionTable};
}

use storage::page::PAGE_SIZE;
use transaction::wal::Wal;
use transaction::TransactionStatus::{Aborted, Active, Committed};

fn main() -> std::io::Result<()> {
    let args: Vec<String> = std::env::args().collect();
    let mut db = std::fs::OpenOptions::new()
        .read(true)
        .write(true)
        .create(true)
        .truncate(false)
        .open(&args[1])?;
    let (mut wal, _) = Wal::open(&args[2], &mut db)?;
    let mut page = [0u8; PAGE_SIZE];
    for (i, byte) in page.iter_mut().enumerate() {
        *byte = ((17 + 7 * i + 13 * (i / 256)) % 256) as u8;
    }
    let end = || std::fs::metadata(&args[2]).map(|m| m.len());
    let mut at = end()?;
    let mut told = |what: &str| -> std::io::Result<()> {
        let next = end()?;
        println!("{at} {what} {next}");
        at = next;
        Ok(())
    };
    wal.append_page(3, &page)?;
    told("image 3")?;
    wal.append_tx_status(5, Active)?;
    told("begin 5")?;
    wal.append_tx_status(5, Committed(9))?;
    told("commit 5 9")?;
    wal.append_tx_status(7, Aborted)?;
    told("abort 7")?;
    wal.append_checkpoint()?;
    told("checkpoint")?;
    println!("end {}", end()?);
    Ok(())
}
