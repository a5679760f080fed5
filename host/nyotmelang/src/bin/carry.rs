//! carry [--stop N | --wait N | --stop-opening N] DIR < SCRIPT: keeps a store in the folder DIR (store.db, store.db.wal, store.db.clog). It opens the store,
//! writes what the opening changed, makes each call of the script, and writes its stores in order, each one synced before the next. After every call it writes its
//! answer, the store and the files, as lines R, S and D of a transcript.
//!
//! For tests: --stop N kills this process right before the N-th store of the run, --wait N writes a line there and waits to be killed, --stop-opening N kills it
//! right before the N-th file that the opening has changed is written.
//!
//! Status 1: the opening was refused. 2: a malformed line or wrong arguments. 3: a file could not be read or written, or another process keeps the store. A store that
//! could not be written is taken back, which the message says, and no further call is made.
use nyotmelang::disk::{Disk, Moment};
use nyotmelang::script::{parse_line, Action, Command, Malformed};
use std::io::{self, BufRead, Write};
use std::path::PathBuf;
use std::process::ExitCode;
use std::time::Duration;

enum Halt {
    Never,
    Kill(Moment),
    Wait(Moment),
}

enum Failure {
    Refused,
    Malformed(String),
    Broken(io::Error),
}

impl From<io::Error> for Failure {
    fn from(error: io::Error) -> Failure {
        Failure::Broken(error)
    }
}

fn arguments() -> Option<(Halt, PathBuf)> {
    let words: Vec<String> = std::env::args().skip(1).collect();
    let words: Vec<&str> = words.iter().map(String::as_str).collect();
    let (halt, dir) = match words[..] {
        [dir] => (Halt::Never, dir),
        ["--stop", n, dir] => (Halt::Kill(Moment::Store(n.parse().ok()?)), dir),
        ["--wait", n, dir] => (Halt::Wait(Moment::Store(n.parse().ok()?)), dir),
        ["--stop-opening", n, dir] => (Halt::Kill(Moment::Opening(n.parse().ok()?)), dir),
        _ => return None,
    };
    Some((halt, PathBuf::from(dir)))
}

// The signal that no process can catch, as when power goes. The shell sends it, since the standard library cannot.
fn die() {
    let own = std::process::id().to_string();
    let sent = std::process::Command::new("sh").args(["-c", "kill -KILL \"$0\"", &own]).status();
    eprintln!("carry: still here after SIGKILL: {sent:?}");
    std::process::abort();
}

fn halt_at(halt: &Halt, moment: Moment) {
    match halt {
        Halt::Kill(at) if *at == moment => die(),
        Halt::Wait(at) if *at == moment => {
            println!("waiting");
            loop {
                std::thread::sleep(Duration::from_secs(1));
            }
        }
        _ => {}
    }
}

fn carry(halt: Halt, dir: PathBuf) -> Result<(), Failure> {
    let mut disk = Disk::new(&dir, |moment| halt_at(&halt, moment))?;
    let show = |disk: &mut Disk<_, _>, command: &Command| -> Result<(), Failure> {
        let lines = disk.run(command)?.map_err(Failure::Malformed)?;
        io::stdout().write_all(lines.as_bytes())?;
        match command {
            Command::Action(Action::Open) if !lines.starts_with("R 0\n") => Err(Failure::Refused),
            _ => Ok(()),
        }
    };
    show(&mut disk, &Command::Action(Action::Open))?;
    for (i, line) in io::stdin().lock().lines().enumerate() {
        let text = line?;
        let malformed = |why| Failure::Malformed(Malformed { line: i + 1, text: text.clone(), why }.to_string());
        if let Some(command) = parse_line(&text).map_err(malformed)? {
            show(&mut disk, &command).map_err(|failure| match failure {
                Failure::Malformed(why) => malformed(why),
                other => other,
            })?;
        }
    }
    Ok(())
}

fn main() -> ExitCode {
    let Some((halt, dir)) = arguments() else {
        eprintln!("carry [--stop N | --wait N | --stop-opening N] DIR < SCRIPT");
        return ExitCode::from(2);
    };
    match carry(halt, dir) {
        Ok(()) => ExitCode::SUCCESS,
        Err(Failure::Refused) => ExitCode::from(1),
        Err(Failure::Malformed(why)) => {
            eprintln!("carry: {why}");
            ExitCode::from(2)
        }
        Err(Failure::Broken(error)) => {
            eprintln!("carry: {error}");
            ExitCode::from(3)
        }
    }
}
