// The calls of the program backs that lie in the published pager's domain, on a database of a page of zeros and the byte 07.
//   after each rollback also sums over log, database and clog; after each page read its first byte and a sum over it; at the end the table
use crate::transaction::TransactionStatus::{Aborted, Active, Committed};
use crate::{sum, Run};

impl Run {
    fn touch(&self, page: u32, byte: u8) -> std::io::Result<()> {
        self.pager.write_page(page, &[byte; 4096])?;
        self.line(&format!("write {page}"));
        self.pager.flush_page(page)?;
        self.line(&format!("flush {page}"));
        Ok(())
    }

    fn rollback(&self, list: &[u32]) -> std::io::Result<()> {
        self.pager.rollback_transaction_reverting(list)?;
        self.line("rollback");
        println!("files {} {} {}", sum(&self.bytes(".wal")), sum(&self.bytes("")), sum(&self.bytes(".clog")));
        Ok(())
    }

    fn read(&self, page: u32) -> std::io::Result<()> {
        let bytes = self.pager.read_page(page)?;
        self.line(&format!("read {page}"));
        println!("page {page} {} {}", bytes[0], sum(&bytes));
        Ok(())
    }

    fn entries(&self) {
        let mut entries: Vec<_> = self.pager.transaction_table().into_iter().collect();
        entries.sort_by_key(|(id, _)| *id);
        println!("entries 0 {}", entries.len());
        for (id, status) in entries {
            match status {
                Active => println!("entry {id} I"),
                Committed(time) => println!("entry {id} C {time}"),
                Aborted => println!("entry {id} A"),
            }
        }
    }
}

pub fn run(name: String) -> std::io::Result<()> {
    let mut file = vec![0; 4097];
    file[4096] = 7;
    std::fs::write(&name, file)?;
    let run = Run::open(name)?;
    run.rollback(&[])?;
    run.begin(7)?;
    run.touch(1, 0x11)?;
    run.rollback(&[])?;
    run.read(1)?;
    run.begin(8)?;
    run.touch(1, 0x11)?;
    run.touch(3, 0x33)?;
    run.rollback(&[])?;
    run.read(1)?;
    run.begin(9)?;
    run.touch(1, 0x55)?;
    run.touch(3, 0x66)?;
    run.touch(4, 0x77)?;
    run.touch(5, 0x88)?;
    run.rollback(&[5, 5, 2])?;
    run.read(1)?;
    run.read(3)?;
    run.read(5)?;
    run.entries();
    Ok(())
}
