//! Cases: scripts of five kinds, taken in turn by the number of the case.
pub mod crashes;
pub mod damage;
pub mod leaves;
pub mod made;
pub mod random;
pub mod short;

use crate::dice::Dice;

#[derive(Clone, Copy, Debug, PartialEq, Eq)]
pub enum Kind {
    /// Short lists of calls, all of them.
    Short,
    /// Made-up lists of calls on made-up files.
    Random,
    /// Files that were damaged, and any bytes.
    Damaged,
    /// Calls cut at every store.
    Crashes,
    /// Log and clog by themselves.
    Leaves,
}

const TURNS: [Kind; 10] = [
    Kind::Short,
    Kind::Random,
    Kind::Crashes,
    Kind::Random,
    Kind::Damaged,
    Kind::Random,
    Kind::Crashes,
    Kind::Random,
    Kind::Leaves,
    Kind::Damaged,
];

impl Kind {
    pub fn of(case: u64) -> Kind {
        TURNS[(case % TURNS.len() as u64) as usize]
    }

    pub fn name(self) -> &'static str {
        match self {
            Kind::Short => "1 short",
            Kind::Random => "2 random",
            Kind::Damaged => "3 damaged",
            Kind::Crashes => "4 crashes",
            Kind::Leaves => "5 leaves",
        }
    }
}

/// The script of a case.
pub fn script_of(seed: u64, case: u64) -> Vec<String> {
    let mut dice = Dice::new(seed, case);
    match Kind::of(case) {
        Kind::Short => short::script(&mut dice, case / TURNS.len() as u64),
        Kind::Random => random::script(&mut dice),
        Kind::Damaged => damage::script(&mut dice),
        Kind::Crashes => crashes::script(&mut dice),
        Kind::Leaves => leaves::script(&mut dice),
    }
}
