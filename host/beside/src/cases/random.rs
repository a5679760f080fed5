//! Made-up lists of calls on made-up files, many in buffers that are soon full.
use super::made::{counter, id, meta, start, NO_PAGE};
use crate::dice::Dice;

pub fn script(dice: &mut Dice) -> Vec<String> {
    if dice.once_in(400) {
        return wide(dice);
    }
    let mut lines = start(dice);
    lines.push("open".to_string());
    let many = dice.once_in(40);
    for _ in 0..dice.below(22) {
        lines.push(call(dice));
        if many && dice.once_in(6) {
            touch_many(dice, &mut lines);
        }
    }
    if dice.once_in(2) {
        lines.push("open".to_string());
    }
    lines
}

// As many pages as there are frames, 64 at most, or one more.
fn wide(dice: &mut Dice) -> Vec<String> {
    let pages = 62 + dice.below(4);
    let mut lines =
        vec![format!("buf {} 60 {} {}", 8 + 9 + 4101 * pages + 18, 4096 * pages, 4096 * (63 + dice.below(3)))];
    lines.extend(["open".to_string(), format!("begin {}", dice.below(200))]);
    for page in 0..pages {
        lines.push(format!("write {page} {}", dice.below(256)));
        lines.push(format!("flush {page}"));
    }
    lines.extend(["count commit".to_string(), format!("read {}", pages)]);
    lines.push(dice.pick(&["commit", "cuts commit", "rollback 3 9", "cutgo 70 commit", "cuts rollback"]).to_string());
    lines.extend(["open".to_string(), format!("read {}", dice.below(pages)), "table 1".to_string()]);
    lines
}

// More pages than a transaction holds.
fn touch_many(dice: &mut Dice, lines: &mut Vec<String>) {
    lines.push(format!("begin {}", id(dice)));
    let (from, step) = (dice.below(5), 1 + dice.below(3));
    for i in 0..62 + dice.below(5) {
        lines.push(format!("flush {}", from + i * step));
    }
}

/// A page number, mostly a small one.
pub fn page(dice: &mut Dice) -> u64 {
    match dice.below(60) {
        0 => NO_PAGE,
        1 => dice.below(300),
        2..=5 => dice.below(12),
        _ => dice.below(6),
    }
}

pub fn list(dice: &mut Dice) -> String {
    let mut line = "rollback".to_string();
    for _ in 0..dice.below(4) {
        line += &format!(" {}", if dice.once_in(40) { NO_PAGE - dice.below(2) } else { dice.below(8) });
    }
    line
}

/// A pager call.
pub fn call(dice: &mut Dice) -> String {
    match dice.below(32) {
        0..=3 => format!("begin {}", id(dice)),
        4..=9 => format!("write {} {}", page(dice), dice.below(256)),
        10 if dice.once_in(3) => format!("writemeta {} {}", dice.below(3), meta(dice, &[0, 2, 3])),
        10 | 11 => format!("read {}", page(dice)),
        12 if dice.once_in(4) => format!("flush {}", NO_PAGE - dice.below(2)),
        12..=17 => format!("flush {}", page(dice)),
        18..=20 => "commit".to_string(),
        21..=22 => list(dice),
        23 => format!("advance {}", if dice.once_in(4) { counter(dice) } else { id(dice) }),
        24 => "alloctx".to_string(),
        25 => "allocpage".to_string(),
        26 => format!("table {}", dice.pick(&[0, 1, 2, 3, 5, 255, 256, 300])),
        27 => format!("uninstall {}", dice.below(2)),
        28 => format!("install {}", dice.below(2)),
        29 => transaction(dice),
        30 if dice.once_in(8) => "close".to_string(),
        _ => "open".to_string(),
    }
}

// In form or not.
fn transaction(dice: &mut Dice) -> String {
    let mut touched: Vec<u64> = (0..dice.pick(&[0, 1, 2, 3, 4, 63, 64, 65])).map(|i| 2 * i + dice.below(2)).collect();
    match dice.below(12) {
        0 => touched.reverse(),
        1 => touched.push(NO_PAGE),
        2 => touched.push(0),
        _ => {}
    }
    let pages: String = touched.iter().map(|page| format!(" {page}")).collect();
    format!("mktx {} {}{pages}", dice.below(2), id(dice))
}
