//! Crash points: the files that a call leaves when power goes between two of its stores, on both sides.
use crate::pair::{agree, differ, outside, same_answer, same_files, Fault, Held, Pair};
use crate::rust::files_line;
use crate::watch::Step;
use crate::wrong::Wrong;
use nyotmelang::executor::Executor;
use nyotmelang::script::{Action, Command};
use nyotmelang::transcript::Answer;
use nyotmelang::{Call, File, Files, Kind, Store, Telling};
use std::fmt::Write;

// How many writes and truncations of the Rust a store is.
fn steps_of(call: &Call, telling: &Telling, clog_len: usize) -> usize {
    match (telling.kind, telling.length, call) {
        (Kind::Append, 1, _) => 1,
        (Kind::Append, 9, _) => 2,
        (Kind::Append, ..) => 3,
        (Kind::Page, ..) => 1,
        (Kind::Truncation, ..) => 2,
        (Kind::Clog, _, Call::Advance(mark)) => {
            let body = clog_len as u64 - 8;
            let whole = (mark.0 / 4).min(body);
            usize::from(whole > 0) + usize::from(mark.0 % 4 > 0 && whole < body)
        }
        (Kind::Clog, ..) => 1 + usize::from(telling.offset >= clog_len),
    }
}

// What a store is told to change is what its steps write.
fn told_as(telling: &Telling, steps: &[Step]) -> bool {
    let own = match telling.kind {
        Kind::Append | Kind::Truncation => 0,
        Kind::Page => 1,
        Kind::Clog => 2,
    };
    let (mut from, mut to, mut elsewhere) = (usize::MAX, 0, false);
    for step in steps {
        match step {
            Step::Cut { file, .. } => elsewhere |= *file != own,
            Step::Write { file, offset, bytes } => {
                elsewhere |= *file != own;
                (from, to) = (from.min(*offset), to.max(offset + bytes.len()));
            }
        }
    }
    let written =
        if from == usize::MAX { telling.length == 0 } else { (from, to - from) == (telling.offset, telling.length) };
    !elsewhere && written
}

// A call with stores as the port tells of it, before it is made.
struct Told<'c> {
    call: &'c Call,
    store: Store,
    files: Files<'static>,
    tellings: Vec<Telling>,
}

impl Told<'_> {
    // After how many of the Rust's steps each store ends, from none on.
    fn ends(&self, steps: &[Step]) -> Result<Vec<usize>, Fault> {
        let clog_len = self.files.len(File::Clog);
        let mut ends = vec![0];
        for (i, telling) in self.tellings.iter().enumerate() {
            let (from, count) = (ends[i], steps_of(self.call, telling, clog_len));
            match steps.get(from..from + count) {
                Some(own) if told_as(telling, own) => ends.push(from + count),
                own => return differ(format!("store {} is told as {telling}, the Rust's steps are {own:?}", i + 1)),
            }
        }
        if ends[self.tellings.len()] != steps.len() {
            return differ(format!(
                "the Rust has {} steps, the stores have {}",
                steps.len(),
                ends[self.tellings.len()]
            ));
        }
        Ok(ends)
    }

    fn cut(&self, k: usize) -> Result<Files<'static>, Fault> {
        let mut files = self.files.clone();
        match self.store.clone().cut(&mut files, self.call, k) {
            Ok(()) => Ok(files),
            Err((refusal, _)) => differ(format!("cut {k} of an accepted call is refused: {refusal}")),
        }
    }
}

impl Pair {
    // None where the call has no stores, no store is open, or the call is refused.
    fn told<'c>(&self, action: &'c Action) -> Result<Option<Told<'c>>, Fault> {
        let (Action::Stores(call), Some(store)) = (action, self.port.store()) else {
            return Ok(None);
        };
        let (store, files) = (store.clone(), self.port.files().clone());
        let count = match store.count(&files, call) {
            Ok(count) => count,
            Err(refusal) => {
                let cut = store.clone().cut(&mut files.clone(), call, 1).map_err(|(refusal, _)| refusal);
                let made = self.port.clone().act(action);
                return match (cut == Err(refusal), made == Answer::Refused(refusal)) {
                    (true, true) => Ok(None),
                    _ => differ(format!("counting is refused with {}, the call answers {made}", refusal.number())),
                };
            }
        };
        let tellings: Vec<_> = (0..count + 2).map(|k| store.told(&files, call, k).ok().flatten()).collect();
        if tellings[0].is_some() || tellings[count + 1].is_some() || tellings[1..=count].contains(&None) {
            return differ(format!("{count} stores are told as {tellings:?}"));
        }
        Ok(Some(Told { call, store, files, tellings: tellings.into_iter().flatten().collect() }))
    }

    // The call is made on both sides; the files of the Rust after each store.
    fn journaled(&mut self, told: &Told, action: &Action) -> Result<Vec<[Vec<u8>; 3]>, Fault> {
        let mut left = self.rust.bytes().clone();
        let answer = self.port.act(action);
        self.tally.answer(&answer);
        self.answer = answer.to_string();
        let (theirs, mut steps) = self.rust.journaled(action)?;
        same_answer(&answer, &theirs)?;
        if self.wrong == Some(Wrong::LostWrite) {
            steps.pop();
        }
        let mut ends = told.ends(&steps)?;
        match self.wrong {
            Some(Wrong::LateCrash) => drop(ends.remove(0)),
            Some(Wrong::EarlyCrash) => ends.insert(0, 0),
            _ => {}
        }
        ends.resize(told.tellings.len() + 1, steps.len());
        let (mut points, mut done) = (Vec::new(), 0);
        for end in ends {
            steps[done..end].iter().for_each(|step| step.redo(&mut left));
            done = end;
            points.push(left.clone());
        }
        Ok(points)
    }

    /// Every crash point of a call is compared and opened; then the call is made.
    pub(crate) fn cuts(&mut self, action: &Action) -> Held {
        let Some(told) = self.told(action)? else {
            return self.action(action);
        };
        let points = self.journaled(&told, action)?;
        for (k, left) in points.into_iter().enumerate() {
            let telling = k.checked_sub(1).map_or("- 0 0".to_string(), |i| told.tellings[i].to_string());
            let _ = writeln!(self.before, "B {k} {telling} {}", files_line(&left));
            let cut = told.cut(k)?;
            let at = |fault| match fault {
                Fault::Differ(what) => {
                    Fault::Differ(format!("power goes after store {k} of {}: {what}", told.tellings.len()))
                }
                other => other,
            };
            same_files(&cut, &left).map_err(at)?;
            self.reopened(cut, left).map_err(at)?;
        }
        Ok(())
    }

    /// The call is carried out to its k-th store on both sides, and the stores are gone.
    pub(crate) fn cut_go(&mut self, k: usize, action: &Action) -> Held {
        let Some(told) = self.told(action)? else {
            return self.action(action);
        };
        let mut port = self.port.clone();
        let mut points = self.journaled(&told, action)?;
        port.run(&Command::CutGo(k, action.clone())).map_err(Fault::Malformed)?;
        self.port = port;
        self.rust.put(points.swap_remove(k.min(told.tellings.len())));
        self.tally.points += 1;
        Ok(())
    }

    fn reopened(&mut self, cut: Files<'static>, left: [Vec<u8>; 3]) -> Held {
        self.tally.points += 1;
        let mut port = Executor::with_files(cut);
        let answer = port.act(&Action::Open);
        self.opening_foretold(port.files(), &left, &answer)?;
        if outside(&answer) {
            return Ok(());
        }
        self.tally.reopened += 1;
        self.crashed.put(left);
        same_answer(&answer, &self.crashed.act(&Action::Open)?)?;
        agree(&port, &self.crashed)
    }
}
