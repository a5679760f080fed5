//! Files that were good and have been damaged, and files of any bytes.
use super::made::hex;
use super::random::call;
use crate::dice::Dice;
use crate::rust::{place, FILES};
use nyotmelang::executor::{Executor, STALE};
use nyotmelang::script::{parse_line, Command};
use nyotmelang::{Files, Sizes};

const ROOM: Sizes = Sizes { log: 13000, db: 20480, clog: 40, frames: 16384 };

pub fn script(dice: &mut Dice) -> Vec<String> {
    let mut files = match dice.once_in(6) {
        true => [any(dice, b"AEROWAL2"), any(dice, b"AERODBM1"), any(dice, b"AEROCLG1")],
        false => good(dice),
    };
    for _ in 0..1 + dice.below(2) {
        damage(dice, &mut files);
    }
    let room = dice.pick(&[0, 9, 4200, 9000]);
    let [log, db, clog] = [0, 1, 2].map(|i| files[i].len());
    let mut lines = vec![format!("buf {} {} {} 16384", log.max(8) + room, clog.max(8) + 20, db.max(4096) + room)];
    for (word, bytes) in ["xl", "xd", "xc"].iter().zip(&files) {
        lines.extend((!bytes.is_empty()).then(|| format!("{word} {}", hex(bytes))));
    }
    lines.push("open".to_string());
    lines.extend((0..dice.below(4)).map(|_| call(dice)));
    lines.push("open".to_string());
    lines
}

// Any bytes, mostly behind the magic, at times as long as a page.
fn any(dice: &mut Dice, magic: &[u8; 8]) -> Vec<u8> {
    let mut bytes = if dice.once_in(3) { Vec::new() } else { magic.to_vec() };
    let most = dice.pick(&[8, 40, 40, 9000]);
    let narrow = dice.pick(&[6, 6, 256]);
    bytes.extend((0..dice.below(most)).map(|_| dice.below(narrow) as u8));
    bytes
}

// What a run of the port leaves that is cut at some store.
fn good(dice: &mut Dice) -> [Vec<u8>; 3] {
    let mut port = Executor::with_files(Files::filled(ROOM, STALE));
    let mut make = |line: &str| match parse_line(line) {
        Ok(Some(Command::Action(action))) => drop(port.act(&action)),
        Ok(Some(command)) => drop(port.run(&command)),
        _ => {}
    };
    make("open");
    for _ in 0..1 + dice.below(3) {
        make(&format!("begin {}", dice.below(9)));
        for _ in 0..dice.below(3) {
            let page = dice.below(4);
            make(&format!("write {page} {}", dice.below(256)));
            make(&format!("flush {page}"));
        }
        let end = dice.pick(&["commit", "rollback", "commit", "rollback 3", "advance 3"]);
        match dice.once_in(2) {
            true => make(end),
            false => {
                make(&format!("cutgo {} {end}", dice.below(9)));
                break;
            }
        }
    }
    FILES.map(|file| port.files().content(file).to_vec())
}

fn damage(dice: &mut Dice, files: &mut [Vec<u8>; 3]) {
    let bytes = &mut files[dice.pick(&[0, 0, 0, 1, 2])];
    let at = spot(dice, bytes.len());
    match dice.below(5) {
        0 if at < bytes.len() => bytes[at] ^= 1 << dice.below(8),
        0 | 1 => bytes.truncate(at),
        2 => drop(bytes.splice(at..at, (0..1 + dice.below(9)).map(|_| dice.below(7) as u8).collect::<Vec<_>>())),
        3 if at < bytes.len() => bytes[at] = dice.below(7) as u8,
        _ => exchange(dice, &mut files[place(nyotmelang::File::Log)]),
    }
}

// A place in a file, mostly near its beginning or its end.
fn spot(dice: &mut Dice, len: usize) -> usize {
    match dice.below(3) {
        0 => dice.size(len + 1),
        1 => dice.size(40).min(len),
        _ => len - dice.size(40).min(len),
    }
}

// Two records of a log change places.
fn exchange(dice: &mut Dice, log: &mut Vec<u8>) {
    let mut records = Vec::new();
    let mut at = 8;
    while at < log.len() {
        let len = match log[at] {
            1 => 4101,
            3 => 17,
            5 => 1,
            _ => 9,
        };
        let end = (at + len).min(log.len());
        records.push(log[at..end].to_vec());
        at = end;
    }
    if records.is_empty() {
        return;
    }
    let (one, other) = (dice.size(records.len()), dice.size(records.len()));
    records.swap(one, other);
    log.truncate(8);
    log.extend(records.concat());
}
