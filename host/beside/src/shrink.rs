//! A script that runs on both sides, and a small one that shows the same as a long one where they differ.
use crate::pair::{Fault, Pair};
use nyotmelang::executor;
use nyotmelang::script::{parse_line, Command};
use std::panic::{self, AssertUnwindSafe};

/// Where the sides differ, and in what.
#[derive(Debug)]
pub struct Difference {
    pub line: usize,
    pub what: String,
}

/// Runs a script from its first line on; the first difference.
pub fn run(pair: &mut Pair, script: &[String]) -> Result<Option<Difference>, String> {
    pair.reset();
    for (line, text) in script.iter().enumerate() {
        let command = parse_line(text).map_err(|why| format!("{text}: {why}"))?;
        let Some(command) = command else {
            continue;
        };
        pair.tally.line(text);
        let held = panic::catch_unwind(AssertUnwindSafe(|| pair.step(&command)));
        match held.unwrap_or_else(|_| Err(Fault::Differ("one side panics".to_string()))) {
            Ok(()) => {}
            Err(Fault::Differ(what)) => return Ok(Some(Difference { line, what })),
            Err(Fault::Malformed(why)) => return Err(format!("{text}: {why}")),
            Err(Fault::Alone) => return Err(format!("{text}: for the port alone")),
        }
    }
    Ok(None)
}

fn differs(pair: &mut Pair, script: &[String]) -> Option<Difference> {
    run(pair, script).ok().flatten()
}

/// A smaller script that still differs: no line of it can be left out, and no word made shorter or smaller.
pub fn shrunk(pair: &mut Pair, script: &[String]) -> Vec<String> {
    let mut script = script.to_vec();
    loop {
        if let Some(difference) = differs(pair, &script) {
            script.truncate(difference.line + 1);
        }
        let before = script.clone();
        drop_lines(pair, &mut script);
        for line in 0..script.len() {
            smaller_words(pair, &mut script, line);
        }
        if script == before {
            return script;
        }
    }
}

fn drop_lines(pair: &mut Pair, script: &mut Vec<String>) {
    let mut run = script.len() / 2;
    while run > 0 {
        let mut at = 0;
        while at + run <= script.len() {
            let mut fewer = script.clone();
            fewer.drain(at..at + run);
            match differs(pair, &fewer) {
                Some(_) => *script = fewer,
                None => at += run,
            }
        }
        run /= 2;
    }
}

// Words are left out, numbers made smaller, bytes made fewer, as long as the scripts differ.
fn smaller_words(pair: &mut Pair, script: &mut [String], line: usize) {
    let mut word = 1;
    while word < script[line].split_whitespace().count() {
        let words: Vec<String> = script[line].split_whitespace().map(str::to_string).collect();
        let better = smaller(&words, word).into_iter().find(|text| {
            let mut tried = script.to_vec();
            tried[line] = text.clone();
            differs(pair, &tried).is_some()
        });
        match better {
            Some(text) => script[line] = text,
            None => word += 1,
        }
    }
}

// Lines in which one word is missing, smaller or shorter.
fn smaller(words: &[String], at: usize) -> Vec<String> {
    let with = |word: Option<String>| {
        let mut line = words.to_vec();
        line.splice(at..=at, word);
        line.join(" ")
    };
    let mut lines = vec![with(None)];
    let word = &words[at];
    let bytes = matches!(words[0].as_str(), "xl" | "xc" | "xd") || words[0].ends_with("set") && at == 2;
    if bytes {
        let half = word.len() / 4 * 2;
        let cuts = [&word[half..], &word[..half], &word[2..], &word[..word.len() - 2]];
        lines.extend(
            cuts.iter().filter(|cut| !cut.is_empty() && cut.len() < word.len()).map(|cut| with(Some(cut.to_string()))),
        );
    } else if let Ok(number) = word.parse::<u64>() {
        let fewer = [0, 1, number / 2, number.saturating_sub(1)];
        lines.extend(fewer.iter().filter(|n| **n < number).map(|n| with(Some(n.to_string()))));
    }
    lines
}

/// The script, and what each side says to it.
pub fn report(pair: &mut Pair, script: &[String]) -> String {
    let text = script.join("\n");
    let port = executor::run_script(&text).unwrap_or_else(|malformed| malformed.to_string());
    let mut rust = String::new();
    let ended = record(pair, script, &mut rust);
    let ended = ended.map_or_else(|why| why + "\n", |()| String::new());
    format!("script:\n{text}\n\nthe port:\n{port}\nthe Rust:\n{rust}{ended}")
}

/// The Rust's transcript, up to the first difference or malformed line. Where the Rust cannot follow it has no lines until the next case.
pub fn record(pair: &mut Pair, script: &[String], transcript: &mut String) -> Result<(), String> {
    let mut alone = false;
    pair.reset();
    for text in script {
        let Some(command) = parse_line(text).map_err(|why| format!("{text}: {why}"))? else {
            continue;
        };
        if let Command::Case(name) = &command {
            *transcript += &format!("case {name}\n");
            alone = false;
        }
        if alone {
            continue;
        }
        let held = pair.step(&command);
        if !matches!(command, Command::Case(_)) && !matches!(held, Err(Fault::Alone)) {
            *transcript += &pair.lines();
        }
        match held {
            Ok(()) => {}
            Err(Fault::Alone) => alone = true,
            Err(Fault::Differ(why) | Fault::Malformed(why)) => return Err(format!("{text}: {why}")),
        }
    }
    Ok(())
}
