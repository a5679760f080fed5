//! record < SCRIPT: writes the Rust's transcript of a script, its lines R, S and D (and B for `cuts`). The port runs beside it: what the port refuses for a limit of
//! its own, reading one record, counts and tellings are not asked of the Rust, and line R has the port's answer there. From a poke, a command of document 02, or a page too far
//! out for the Rust, to the next case there are no lines. Status 1: the two differ, or a line is malformed; 2: no folder can be used.
use beside::folder::Folder;
use beside::pair::Pair;
use beside::shrink::record;
use std::io::{self, Read, Write};
use std::process::ExitCode;

fn recorded() -> io::Result<Result<(), String>> {
    let mut text = String::new();
    io::stdin().read_to_string(&mut text)?;
    let script: Vec<String> = text.lines().map(str::to_string).collect();
    let folder = Folder::new()?;
    let mut pair = Pair::new(folder.path(), None)?;
    let mut transcript = String::new();
    let ended = record(&mut pair, &script, &mut transcript);
    io::stdout().write_all(transcript.as_bytes())?;
    Ok(ended)
}

fn main() -> ExitCode {
    match recorded() {
        Ok(Ok(())) => ExitCode::SUCCESS,
        Ok(Err(why)) => {
            eprintln!("record: {why}");
            ExitCode::from(1)
        }
        Err(error) => {
            eprintln!("record: {error}");
            ExitCode::from(2)
        }
    }
}
