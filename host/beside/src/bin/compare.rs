//! compare [--seed S] [--cases N] [--from K] [--wrong NAME | --beyond N | --misread NAME]: runs made-up scripts on the port and on the published Rust and holds the two against
//! each other after every command, and the number of every answer against the one that document 01 gives. At a difference it writes a small script that shows it, with both transcripts, and ends with status 1. --from K begins with case K; a case is the same
//! whichever case comes first. --wrong NAME puts a deliberate mistake on the Rust's side, which is to be found. --beyond N asks the Rust also where the port refuses
//! with N for a limit of its own, so that a smallest input of that difference is shown. --misread NAME foretells numbers from document 01 read wrongly in one point, as a port
//! would answer that refuses wrongly there; that is to be found too. Status 2: wrong arguments, or a folder that cannot be used.
use beside::cases::{script_of, Kind};
use beside::folder::Folder;
use beside::foretell::{Reading, MISREAD};
use beside::pair::Pair;
use beside::shrink::{report, run, shrunk};
use beside::watch;
use beside::wrong::{Wrong, WRONGS};
use std::process::ExitCode;
use std::time::Instant;

struct Asked {
    seed: u64,
    cases: u64,
    from: u64,
    wrong: Option<Wrong>,
    beyond: Option<u8>,
    reading: Reading,
}

fn asked() -> Option<Asked> {
    let mut asked =
        Asked { seed: 20261115, cases: 20000, from: 0, wrong: None, beyond: None, reading: Reading::default() };
    let mut words = std::env::args().skip(1);
    while let Some(word) = words.next() {
        let value = words.next()?;
        match word.as_str() {
            "--seed" => asked.seed = value.parse().ok()?,
            "--cases" => asked.cases = value.parse().ok()?,
            "--from" => asked.from = value.parse().ok()?,
            "--wrong" => asked.wrong = Some(Wrong::named(&value)?),
            "--beyond" => asked.beyond = Some(value.parse().ok()?),
            "--misread" => asked.reading = Reading::wrong_in(&value)?,
            _ => return None,
        }
    }
    Some(asked)
}

// True where no case shows a difference.
fn compare(asked: &Asked, pair: &mut Pair) -> Result<bool, String> {
    let started = Instant::now();
    for case in asked.from..asked.from + asked.cases {
        let script = script_of(asked.seed, case);
        *pair.tally.cases.entry(Kind::of(case).name()).or_default() += 1;
        if let Some(difference) = run(pair, &script).map_err(|why| format!("case {case}: {why}"))? {
            println!("case {case} of seed {}, line {}: {}", asked.seed, difference.line + 1, difference.what);
            let small = shrunk(pair, &script);
            if let Ok(Some(difference)) = run(pair, &small) {
                println!("made small, line {}: {}\n", difference.line + 1, difference.what);
            }
            println!("{}", report(pair, &small));
            return Ok(false);
        }
        let done = case + 1 - asked.from;
        if done.is_multiple_of(10000) && done < asked.cases {
            println!("{done} cases, {} crash points, {:.1} s", pair.tally.points, started.elapsed().as_secs_f64());
        }
    }
    println!("seed {}, no difference, {:.1} s\n{}", asked.seed, started.elapsed().as_secs_f64(), pair.tally);
    Ok(true)
}

fn main() -> ExitCode {
    let Some(asked) = asked() else {
        let names: Vec<_> = WRONGS.iter().map(|(name, _)| *name).collect();
        eprintln!("compare [--seed S] [--cases N] [--from K] [--wrong NAME | --beyond N | --misread NAME]");
        eprintln!("NAME: {}; misread: {}", names.join(", "), MISREAD.join(", "));
        return ExitCode::from(2);
    };
    // A sync changes no byte.
    watch::without_syncs(true);
    let done = Folder::new().map_err(|error| error.to_string()).and_then(|folder| {
        let mut pair = Pair::new(folder.path(), asked.wrong).map_err(|error| error.to_string())?;
        pair.beyond = asked.beyond;
        pair.reading = asked.reading.clone();
        compare(&asked, &mut pair)
    });
    match done {
        Ok(true) => ExitCode::SUCCESS,
        Ok(false) => ExitCode::from(1),
        Err(why) => {
            eprintln!("compare: {why}");
            ExitCode::from(2)
        }
    }
}
