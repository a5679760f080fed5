// The calls of the program turns that lie in the published pager's domain.
//   around the marks also a sum over the clog in a buffer of 64 bytes, the rest EE, and one over the database
use crate::{sum, Run};

impl Run {
    fn sums(&self) {
        let mut clog = self.bytes(".clog");
        clog.resize(64, 0xEE);
        println!("clog and database {} {}", sum(&clog), sum(&self.bytes("")));
    }

    fn touch(&self, page: u32, byte: u8) -> std::io::Result<()> {
        self.pager.write_page(page, &[byte; 4096])?;
        self.line("write");
        self.pager.flush_page(page)?;
        self.line("flush");
        Ok(())
    }

    fn commit(&self) -> std::io::Result<()> {
        self.pager.commit_transaction()?;
        self.line("commit");
        Ok(())
    }

    fn advance(&self, mark: u64) -> std::io::Result<()> {
        self.pager.advance_frozen_xid(mark)?;
        self.line(&format!("advance {mark}"));
        self.sums();
        Ok(())
    }
}

pub fn run(name: String) -> std::io::Result<()> {
    let run = Run::open(name)?;
    run.begin(5)?;
    run.commit()?;
    run.begin(6)?;
    run.touch(4, 0x44)?;
    run.touch(3, 0x33)?;
    run.commit()?;
    run.sums();
    run.advance(0)?;
    run.advance(6)
}
