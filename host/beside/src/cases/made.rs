//! Made-up files and buffers, as lines of a script.
use crate::dice::Dice;

pub const NO_PAGE: u64 = u32::MAX as u64;

/// Lines that build the three files, and the files' lengths.
#[derive(Default)]
pub struct Made {
    pub lines: Vec<String>,
    pub log: usize,
    pub db: usize,
    pub clog: usize,
}

/// A small id, mostly; at times one whose slot is far out, or at the end of all ids.
pub fn id(dice: &mut Dice) -> u64 {
    match dice.below(24) {
        0 | 1 => 0,
        2 => dice.below(400),
        3 => 16 + dice.below(20),
        4 if dice.once_in(6) => u64::MAX - dice.below(3),
        _ => dice.below(12),
    }
}

/// A counter as it stands in a meta page or a commit record.
pub fn counter(dice: &mut Dice) -> u64 {
    match dice.below(16) {
        0 => u64::MAX - dice.below(3),
        1 => 1 << (32 + dice.below(31)),
        _ => dice.below(12),
    }
}

pub fn meta(dice: &mut Dice, versions: &[u32]) -> String {
    format!("{} {} {} {}", counter(dice), counter(dice), counter(dice), dice.pick(versions))
}

pub fn hex(bytes: &[u8]) -> String {
    const DIGITS: &[u8; 16] = b"0123456789abcdef";
    bytes.iter().flat_map(|byte| [byte >> 4, byte & 15]).map(|half| DIGITS[half as usize] as char).collect()
}

impl Made {
    fn record(&mut self, dice: &mut Dice) {
        let (line, len) = match dice.below(10) {
            0 => (format!("xlimg {} {}", dice.below(6), dice.below(256)), 4101),
            1 if dice.once_in(30) => (format!("xlimg {} {}", NO_PAGE, dice.below(256)), 4101),
            1 => (format!("xlmeta 0 {}", meta(dice, &[0, 2, 3])), 4101),
            2..=4 => (format!("xlbegin {}", id(dice)), 9),
            5 | 6 => (format!("xlcommit {} {}", id(dice), counter(dice)), 17),
            7 | 8 => (format!("xlabort {}", id(dice)), 9),
            _ => ("xlckpt".to_string(), 1),
        };
        self.lines.push(line);
        self.log += len;
    }

    fn log(&mut self, dice: &mut Dice) {
        if dice.once_in(16) {
            let bytes: Vec<u8> = (0..dice.below(20)).map(|_| dice.below(7) as u8).collect();
            self.log += bytes.len();
            self.lines.extend((!bytes.is_empty()).then(|| format!("xl {}", hex(&bytes))));
            return;
        }
        self.lines.push("xlmagic".to_string());
        self.log = 8;
        for _ in 0..dice.below(7) {
            self.record(dice);
        }
        match dice.below(12) {
            0 => {
                self.log = dice.size(self.log + 1);
                self.lines.push(format!("xlcut {}", self.log));
            }
            1 => {
                self.log += 1;
                self.lines.push(format!("xl {:02x}", dice.below(9)));
            }
            2 => self.lines.push(format!("xlset {} {:02x}", dice.below(8), dice.below(256))),
            _ => {}
        }
    }

    fn db(&mut self, dice: &mut Dice) {
        if !dice.once_in(4) {
            self.lines.push(format!("xdmeta {}", meta(dice, &[2, 2, 2, 2, 2, 0, 0, 1, 3, u32::MAX])));
            self.db += 4096;
        }
        for _ in 0..dice.below(4) {
            self.lines.push(format!("xdpage {}", dice.below(256)));
            self.db += 4096;
        }
        match dice.below(8) {
            0 => {
                self.db = dice.size(self.db + 1);
                self.lines.push(format!("xdcut {}", self.db));
            }
            1 => {
                let zeros = dice.pick(&[1, 36, 4095, 4096]);
                self.db += zeros;
                self.lines.push(format!("xdzero {zeros}"));
            }
            _ => {}
        }
    }

    fn clog(&mut self, dice: &mut Dice) {
        self.lines.push("xcmagic".to_string());
        self.clog = 8;
        // At times a table that is full, or one short of that or past it.
        let full = dice.once_in(12);
        let body: Vec<u8> = match full {
            true => (0..64).map(|_| dice.pick(&[0x55, 0xAA, 0xFF, 0x9E])).collect(),
            false => (0..dice.below(6)).map(|_| dice.roll() as u8 & dice.pick(&[0xFF, 0x3C, 0x03])).collect(),
        };
        self.clog += body.len();
        self.lines.extend((!body.is_empty()).then(|| format!("xc {}", hex(&body))));
        if full {
            match dice.below(3) {
                0 => self.lines.push(format!("xcset {} {:02x}", 8 + dice.below(60), dice.pick(&[0x54, 0x05, 0x40]))),
                1 if dice.once_in(2) => {
                    self.clog += 1;
                    self.lines.push("xc 02".to_string());
                }
                _ => {}
            }
            return;
        }
        match dice.below(10) {
            0 => {
                self.clog = dice.size(self.clog + 1);
                self.lines.push(format!("xccut {}", self.clog));
            }
            1 => self.lines.push(format!("xcset {} {:02x}", dice.below(8), dice.below(256))),
            _ => {}
        }
    }
}

/// Log, database and clog as something may have left them.
pub fn files(dice: &mut Dice) -> Made {
    let mut made = Made::default();
    if dice.once_in(3) {
        return made;
    }
    if !dice.once_in(4) {
        made.log(dice);
    }
    made.db(dice);
    if !dice.once_in(5) {
        made.clog(dice);
    }
    made
}

/// A line for the buffers, in which these lengths fit; most have little room left, so that the limits are met.
pub fn buffers(dice: &mut Dice, made: &Made) -> String {
    if dice.once_in(4) {
        return format!("buf {} {} {} {}", made.log.max(8) + 33000, made.clog.max(8) + 500, made.db + 33000, 8 * 4096);
    }
    let near = |dice: &mut Dice, wanted: usize| {
        (wanted + dice.pick(&[0, 0, 0, 1, 2, 9])).saturating_sub(dice.pick(&[0, 0, 0, 0, 1]))
    };
    let images = dice.size(5);
    let log = 8 + 9 * dice.size(4) + 4101 * images + dice.pick(&[0, 1, 9, 10, 18, 18, 27]);
    let clog = 8 + dice.pick(&[0, 1, 2, 3, 3, 4, 8, 64, 65, 110]);
    let db = 4096 * dice.pick(&[0, 1, 2, 3, 4, 5, 6, 8]) + dice.pick(&[0, 0, 0, 1, 4095]);
    let frames = 4096 * dice.pick(&[1, 1, 2, 3, 4, 5, 8]) + dice.pick(&[0, 0, 1, 4095]) - usize::from(dice.once_in(60));
    let short = usize::from(dice.once_in(60));
    let log = near(dice, log).max(made.log.saturating_sub(short));
    let clog = near(dice, clog).max(made.clog.saturating_sub(short));
    format!("buf {log} {clog} {} {frames}", near(dice, db).max(made.db.saturating_sub(short)))
}

/// Buffers and files of a case.
pub fn start(dice: &mut Dice) -> Vec<String> {
    let made = files(dice);
    let mut lines = vec![buffers(dice, &made)];
    lines.extend(made.lines);
    lines
}
