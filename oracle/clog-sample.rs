// Runs the published clog on a made-up list of calls, and writes the list and what came of it.
//   the list: 9 bytes a call, a kind and a number (8 bytes, little-endian): 0 open, 1 reset, 2, 3, 4 record the number as Active, Committed, Aborted,
//   5 compact below the number, 6 load
//   after each call a line: kind, number, the file's length, a sum over its bytes; after a load also each entry, id and status, ascending
mod transaction {
    pub mod clog;
    pub mod state;
    pub mod tx_table;
    pub use state::TransactionId;
    pub use tx_table::{TransactionStatus, TransactionTable};
}

use transaction::clog::Clog;
use transaction::TransactionStatus::{Aborted, Active, Committed};

// A small generator of numbers, so that the list is the same on every machine.
struct Dice(u64);

impl Dice {
    fn roll(&mut self, sides: u64) -> u64 {
        self.0 ^= self.0 << 13;
        self.0 ^= self.0 >> 7;
        self.0 ^= self.0 << 17;
        self.0 % sides
    }
}

fn sum(bytes: &[u8]) -> u64 {
    bytes.iter().fold(7, |s, b| (s * 31 + *b as u64) % 65521)
}

fn main() -> std::io::Result<()> {
    let args: Vec<String> = std::env::args().collect();
    let mut dice = Dice(0x9E37_79B9_7F4A_7C15);
    let mut list = Vec::new();
    let mut clog = Clog::open(&args[1])?;
    for i in 0..450 {
        let kind = if i == 0 { 0 } else { [0, 1, 2, 2, 3, 3, 3, 4, 4, 5, 5, 6][dice.roll(12) as usize] };
        // Resets are rare, most ids small, some marks past everything.
        let kind = if kind == 1 && dice.roll(8) > 0 { 3 } else { kind };
        let wide = [12, 40, 200, 900][dice.roll(4) as usize];
        let number = if kind == 5 && dice.roll(20) == 0 { u64::MAX - dice.roll(5) } else { dice.roll(wide) };
        list.push(kind as u8);
        list.extend_from_slice(&number.to_le_bytes());
        let mut entries = Vec::new();
        match kind {
            0 => clog = Clog::open(&args[1])?,
            1 => clog.reset()?,
            2 => clog.record(number, Active)?,
            3 => clog.record(number, Committed(number + 1))?,
            4 => clog.record(number, Aborted)?,
            5 => clog.compact(number)?,
            _ => entries = clog.load()?.into_iter().collect(),
        }
        let bytes = std::fs::read(&args[1])?;
        println!("{kind} {number} {} {}", bytes.len(), sum(&bytes));
        entries.sort_by_key(|e| e.0);
        for (id, status) in entries {
            match status {
                Active => println!("  {id} I"),
                Committed(time) => println!("  {id} C {time}"),
                Aborted => println!("  {id} A"),
            }
        }
    }
    std::fs::write(&args[2], list)
}
