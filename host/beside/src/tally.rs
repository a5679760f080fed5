//! What a run has covered.
use nyotmelang::transcript::Answer;
use std::collections::BTreeMap;
use std::fmt;

#[derive(Default)]
pub struct Tally {
    /// Cases of each kind.
    pub cases: BTreeMap<&'static str, u64>,
    /// Lines of each opcode.
    pub lines: BTreeMap<String, u64>,
    /// Refusals by number; at 0 what was accepted.
    pub answers: [u64; 15],
    /// Files as a call leaves them at a store, and how many of them were opened on both sides.
    pub points: u64,
    pub reopened: u64,
    /// Answers whose number was foretold.
    pub foretold: u64,
}

impl Tally {
    pub fn line(&mut self, text: &str) {
        let opcode = text.split_whitespace().next().unwrap_or_default();
        match self.lines.get_mut(opcode) {
            Some(count) => *count += 1,
            None => drop(self.lines.insert(opcode.to_string(), 1)),
        }
    }

    pub fn answer(&mut self, answer: &Answer) {
        match answer {
            Answer::Accepted(_) => self.answers[0] += 1,
            Answer::Refused(refusal) => self.answers[refusal.number() as usize] += 1,
            Answer::NoStore | Answer::NoRegister => {}
        }
    }

    pub fn total_cases(&self) -> u64 {
        self.cases.values().sum()
    }
}

impl fmt::Display for Tally {
    fn fmt(&self, f: &mut fmt::Formatter<'_>) -> fmt::Result {
        let listed = |counts: &mut dyn Iterator<Item = (String, u64)>| {
            counts.map(|(name, count)| format!("{name} {count}")).collect::<Vec<_>>().join(", ")
        };
        let cases = listed(&mut self.cases.iter().map(|(name, count)| (name.to_string(), *count)));
        let lines = listed(&mut self.lines.iter().map(|(name, count)| (name.clone(), *count)));
        let answers = listed(&mut self.answers.iter().enumerate().map(|(number, count)| (number.to_string(), *count)));
        writeln!(f, "cases: {} ({cases})", self.total_cases())?;
        writeln!(f, "commands: {} ({lines})", self.lines.values().sum::<u64>())?;
        writeln!(f, "answers by number: {answers}")?;
        write!(f, "crash points: {}, of them opened on both sides: {}; ", self.points, self.reopened)?;
        write!(f, "answers whose number was foretold: {}", self.foretold)
    }
}
