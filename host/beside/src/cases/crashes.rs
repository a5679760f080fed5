//! Calls with stores, each cut at every one of them.
use super::made::{files, start, NO_PAGE};
use super::random::{call, list};
use crate::dice::Dice;

pub fn script(dice: &mut Dice) -> Vec<String> {
    let mut lines = match dice.once_in(3) {
        true => start(dice),
        false => roomy(dice),
    };
    lines.push("open".to_string());
    for _ in 0..3 + dice.below(8) {
        next(dice, &mut lines);
    }
    lines
}

fn roomy(dice: &mut Dice) -> Vec<String> {
    let made = files(dice);
    let mut lines =
        vec![format!("buf {} {} {} 20480", made.log.max(8) + 13000, made.clog.max(8) + 120, made.db + 25000)];
    lines.extend(made.lines);
    lines
}

fn next(dice: &mut Dice, lines: &mut Vec<String>) {
    let line = call(dice);
    let stores = ["begin", "flush", "commit", "rollback", "advance"].iter().any(|word| line.starts_with(word));
    if stores && dice.once_in(12) {
        lines.push(format!("cutgo {} {line}", dice.below(11)));
        lines.push("open".to_string());
    } else if stores {
        lines.push(format!("cuts {line}"));
    } else {
        lines.push(line);
    }
    if dice.once_in(4) {
        turn(dice, lines);
    }
}

// A transaction with a few pages from its beginning to its end.
fn turn(dice: &mut Dice, lines: &mut Vec<String>) {
    lines.push(format!("cuts begin {}", dice.below(30)));
    for _ in 0..dice.below(4) {
        let page = if dice.once_in(30) { NO_PAGE - 1 } else { dice.below(5) };
        if page < 5 {
            lines.push(format!("write {page} {}", dice.below(256)));
        }
        lines.push(format!("flush {page}"));
    }
    let end = if dice.once_in(2) { "commit".to_string() } else { list(dice) };
    lines.push(format!("cuts {end}"));
}
