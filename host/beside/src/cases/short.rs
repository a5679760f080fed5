//! Short lists of calls: every list of three out of an alphabet, on each of a few small stores. A case has all lists with the same first two calls; what is
//! compared after each call makes the shorter lists part of the longer ones. When all are through, longer lists are made up.
use crate::dice::Dice;

const CALLS: [&str; 18] = [
    "begin 1",
    "begin 5",
    "write 0 3",
    "write 1 5",
    "write 3 9",
    "read 1",
    "flush 0",
    "flush 1",
    "flush 3",
    "commit",
    "rollback",
    "rollback 3 0",
    "advance 6",
    "alloctx",
    "allocpage",
    "uninstall 0",
    "install 0",
    "open",
];

const STORES: [&[&str]; 6] = [
    &["buf 13000 40 20480 16384", "open"],
    &[
        "buf 13000 40 20480 16384",
        "xdmeta 6 4 1 2",
        "xcmagic",
        "xc 39",
        "open",
        "begin 7",
        "write 1 4",
        "flush 1",
        "write 3 2",
        "flush 3",
    ],
    &[
        "buf 13000 40 20480 16384",
        "xdpage 1",
        "xd 07",
        "xlmagic",
        "xlbegin 5",
        "xlimg 2 7",
        "xlcommit 5 9",
        "xlabort 6",
        "open",
    ],
    // One frame, and room for one page in the log.
    &["buf 4136 10 12288 4096", "xdmeta 2 2 0 0", "open", "mktx 0 3 0 1"],
    // Counters at their maximum, and a tail behind the last page.
    &[
        "buf 13000 12 16384 12288",
        "xdmeta 18446744073709551615 18446744073709551615 3 2",
        "xdpage 8",
        "xdcut 5000",
        "xcmagic",
        "xc e439",
        "open",
        "begin 4",
    ],
    &[
        "buf 8300 40 16384 12288",
        "xdmeta 9 9 9 2",
        "xdpage 5",
        "xdpage 6",
        "open",
        "read 2",
        "write 1 1",
        "begin 2",
        "flush 1",
    ],
];

/// How many cases it takes to have them all.
pub const WHOLE: u64 = (STORES.len() * CALLS.len() * CALLS.len()) as u64;

pub fn script(dice: &mut Dice, nth: u64) -> Vec<String> {
    if nth >= WHOLE {
        return longer(dice);
    }
    let (store, nth) = (nth as usize % STORES.len(), nth as usize / STORES.len());
    let (first, second) = (CALLS[nth % CALLS.len()], CALLS[nth / CALLS.len()]);
    let mut lines = Vec::new();
    for (i, third) in CALLS.iter().enumerate() {
        lines.push(format!("case {i}"));
        lines.extend(STORES[store].iter().chain(&[first, second, *third]).map(|line| line.to_string()));
    }
    lines
}

fn longer(dice: &mut Dice) -> Vec<String> {
    let mut lines: Vec<String> = dice.pick(&STORES).iter().map(|line| line.to_string()).collect();
    lines.extend((0..4 + dice.below(9)).map(|_| dice.pick(&CALLS).to_string()));
    lines
}
