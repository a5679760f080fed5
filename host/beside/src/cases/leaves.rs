//! Log and clog by themselves; then the files are opened.
use super::made::{counter, hex, id, NO_PAGE};
use crate::dice::Dice;

pub fn script(dice: &mut Dice) -> Vec<String> {
    let log = dice.pick(&[7, 8, 17, 25, 26, 43, 60, 4109, 4118, 4200, 9000]);
    let clog = dice.pick(&[7, 8, 9, 10, 12, 12, 40, 71, 72, 73, 120]);
    let mut lines = vec![format!("buf {log} {clog} {} 4096", dice.pick(&[4096, 8192, 20480]))];
    if dice.once_in(2) {
        lines.push(format!("xdmeta {} {} {} 2", counter(dice), counter(dice), counter(dice)));
    }
    begun(dice, clog, &mut lines);
    if !dice.once_in(4) {
        lines.push("copen".to_string());
    }
    for _ in 0..3 + dice.below(22) {
        lines.push(leaf(dice, clog));
    }
    lines.push("open".to_string());
    lines
}

// A clog that has something in it, at times as much as the table can hold.
fn begun(dice: &mut Dice, room: usize, lines: &mut Vec<String>) {
    match dice.below(4) {
        0 => {}
        1 => {
            let odd: Vec<u8> = (0..1 + dice.size(room.min(11))).map(|_| dice.roll() as u8).collect();
            lines.push(format!("xc {}", hex(&odd)));
        }
        _ if room > 8 => {
            let full = dice.pick(&[0x55, 0xFF, 0x99, 0x24]);
            let body: Vec<u8> =
                (0..1 + dice.size(room - 8)).map(|_| if room > 60 { full } else { dice.roll() as u8 }).collect();
            lines.push("xcmagic".to_string());
            lines.push(format!("xc {}", hex(&body)));
        }
        _ => {}
    }
}

fn leaf(dice: &mut Dice, room: usize) -> String {
    // The last slots that have room, and the first that have none.
    let edge = (4 * (room as u64).saturating_sub(8) + 2).saturating_sub(dice.below(5));
    let tx = if dice.once_in(5) { edge } else { id(dice) };
    match dice.below(20) {
        0 => format!("lapp image {} {}", if dice.once_in(20) { NO_PAGE } else { dice.below(4) }, dice.below(256)),
        1 | 2 => format!("lapp begin {tx}"),
        3 | 4 => format!("lapp commit {tx} {}", counter(dice)),
        5 => format!("lapp abort {tx}"),
        6 => "lapp ckpt".to_string(),
        7 => "ltrunc".to_string(),
        8 => dice.pick(&["copen", "creset", "copen"]).to_string(),
        9..=11 => format!("crec {tx} I"),
        12 | 13 => format!("crec {tx} C {}", counter(dice)),
        14 => format!("crec {tx} A"),
        15 | 16 => format!("ccomp {}", if dice.once_in(3) { counter(dice) } else { tx }),
        _ => "cload".to_string(),
    }
}
