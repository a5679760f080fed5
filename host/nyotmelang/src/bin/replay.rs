//! replay < SCRIPT: runs a script on the library and writes its transcript. A malformed line ends it with a message and status 2.
use nyotmelang::executor::Executor;
use nyotmelang::script::{parse_line, Malformed};
use std::io::{self, BufRead, Write};
use std::process::ExitCode;

fn replay() -> Result<(), String> {
    let mut executor = Executor::new();
    let mut out = io::BufWriter::new(io::stdout().lock());
    for (i, line) in io::stdin().lock().lines().enumerate() {
        let text = line.map_err(|error| format!("line {}: {error}", i + 1))?;
        let malformed = |why| Malformed { line: i + 1, text: text.clone(), why }.to_string();
        if let Some(command) = parse_line(&text).map_err(malformed)? {
            let lines = executor.run(&command).map_err(malformed)?;
            out.write_all(lines.as_bytes()).map_err(|error| error.to_string())?;
        }
    }
    out.flush().map_err(|error| error.to_string())
}

fn main() -> ExitCode {
    match replay() {
        Ok(()) => ExitCode::SUCCESS,
        Err(why) => {
            eprintln!("replay: {why}");
            ExitCode::from(2)
        }
    }
}
