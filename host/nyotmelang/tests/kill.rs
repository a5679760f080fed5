//! The program `carry` is killed at every store of a script, by itself and from outside. The files on disk must then be those of the library's cut, and the next
//! opening must be accepted and tell what the library tells of these files.
use nyotmelang::disk::{on_disk, DISK_SIZES};
use nyotmelang::emulated::command;
use nyotmelang::executor::Executor;
use nyotmelang::script::{parse, Action, Command};
use nyotmelang::transcript::{files_line, store_line, Answer};
use nyotmelang::{File, Files};
use std::io::{BufRead, BufReader, Write};
use std::os::unix::process::ExitStatusExt;
use std::path::{Path, PathBuf};
use std::process::{Child, Output, Stdio};

const SIGKILL: i32 = 9;

// Every call with stores: commits of 2, 1 (page 0) and 0 pages, rollbacks with data pages and without, a flush outside a transaction, an advance; the last one is left open.
const SCRIPT: &str = "begin 1\nwrite 1 5\nwrite 3 9\nflush 1\nflush 3\ncommit\n\
    begin 2\nwrite 3 77\nflush 3\nwrite 1 8\nflush 1\nwrite 6 4\nflush 6\nrollback 6\n\
    write 4 3\nflush 4\nalloctx\nbegin 5\nadvance 2\nrollback\n\
    begin 7\nwritemeta 0 4 1 2 2\nflush 0\ncommit\nbegin 9\ncommit\nallocpage\nbegin 11\nwrite 5 1\nflush 5\n";

// Ids from here on are kept through every advance of the script.
const KEPT: u64 = 2;

// ---- the library's own account

// The files of all three names, in the order of on_disk.
fn contents(files: &Files) -> [Vec<u8>; 3] {
    [File::Log, File::Database, File::Clog].map(|file| files.content(file).to_vec())
}

fn fresh(contents: &[Vec<u8>; 3]) -> Executor {
    let mut files = Files::new(DISK_SIZES);
    for (file, bytes) in [File::Log, File::Database, File::Clog].into_iter().zip(contents) {
        files.append(file, bytes);
    }
    Executor::with_files(files)
}

// The script up to right before its n-th store, from 1 on; or how many stores it has, where it has fewer.
fn model(n: usize) -> Result<[Vec<u8>; 3], usize> {
    let mut executor = fresh(&Default::default());
    assert_eq!(executor.act(&Action::Open), Answer::plain());
    let mut stores = 0;
    for (_, command) in parse(SCRIPT).expect("a script") {
        let Command::Action(action) = command else { panic!("a pager's call") };
        if let (Action::Stores(call), Some(store)) = (&action, executor.store()) {
            let count = store.count(executor.files(), call).expect("an accepted call");
            if stores + count >= n {
                let mut files = executor.files().clone();
                store.clone().cut(&mut files, call, n - 1 - stores).expect("an accepted call");
                return Ok(contents(&files));
            }
            stores += count;
        }
        assert!(matches!(executor.act(&action), Answer::Accepted(_)), "{action:?}");
    }
    Err(stores)
}

// What opening these files tells, as lines, and what it leaves.
fn reopened(left: &[Vec<u8>; 3]) -> (String, [Vec<u8>; 3]) {
    let mut executor = fresh(left);
    let answer = executor.act(&Action::Open);
    let (store, files) = (executor.store(), executor.files());
    (format!("R {answer}\n{}\n{}\n", store_line(store, files), files_line(files)), contents(files))
}

// ---- the program

struct Folder(PathBuf);

impl Folder {
    fn new(name: &str) -> Folder {
        let path = std::env::temp_dir().join(format!("nyotmelang-{}-{name}", std::process::id()));
        let _ = std::fs::remove_dir_all(&path);
        Folder(path)
    }
}

impl Drop for Folder {
    fn drop(&mut self) {
        let _ = std::fs::remove_dir_all(&self.0);
    }
}

fn start(args: &[&str], dir: &Path, script: &str) -> Child {
    let mut child = command(env!("CARGO_BIN_EXE_carry"))
        .args(args)
        .arg(dir)
        .stdin(Stdio::piped())
        .stdout(Stdio::piped())
        .spawn()
        .expect("carry runs");
    let mut stdin = child.stdin.take().expect("its standard input");
    // It may have died before it read all of it.
    let _ = stdin.write_all(script.as_bytes());
    child
}

fn finish(child: Child) -> (Output, String) {
    let output = child.wait_with_output().expect("carry ends");
    let text = String::from_utf8(output.stdout.clone()).expect("plain text");
    (output, text)
}

// Of the last store line the table's entries, as `id:status`.
fn entries(lines: &str) -> Vec<String> {
    let line = lines.lines().rev().find(|line| line.starts_with("S ")).expect("a store line");
    let table = line.split(" T ").nth(1).and_then(|rest| rest.split(" X ").next()).expect("a table");
    table.split(' ').skip(1).map(str::to_string).collect()
}

// Every commit and abort that carry had answered before it died is still there.
fn keeps(said: &str, now: &str, n: usize) {
    let now = entries(now);
    for entry in entries(said) {
        let mut parts = entry.split(':');
        let (id, status) = (parts.next().unwrap_or_default(), parts.next().unwrap_or_default());
        let lasts = id.parse::<u64>().expect("an id") >= KEPT && status != "I";
        let stays = now.iter().any(|e| e.split(':').take(2).eq([id, status]));
        assert!(!lasts || stays, "store {n}: {entry} was answered, then {now:?}");
    }
}

// After a kill at the n-th store: files as the model's cut, then opened again by carry.
fn check(folder: &Folder, n: usize, said: &str) {
    let left = model(n).expect("a store of the script");
    assert!(on_disk(&folder.0).expect("three files") == left, "files after a kill at store {n}");
    let (lines, after) = reopened(&left);
    let (output, text) = finish(start(&[], &folder.0, ""));
    assert!(output.status.success() && text.starts_with("R 0\n"), "store {n}: {text}");
    assert_eq!(text, lines, "opening after a kill at store {n}");
    assert!(on_disk(&folder.0).expect("three files") == after, "files after the opening, store {n}");
    keeps(said, &text, n);
}

// ---- the kills

#[test]
fn killed_at_every_store() {
    let total = model(usize::MAX).expect_err("the whole script");
    assert_eq!(total, 47);
    for n in 1..=total {
        let folder = Folder::new(&format!("stop-{n}"));
        let (output, text) = finish(start(&["--stop", &n.to_string()], &folder.0, SCRIPT));
        assert_eq!(output.status.signal(), Some(SIGKILL), "store {n}: {:?}", output.status);
        check(&folder, n, &text);
    }
}

#[test]
fn killed_from_outside() {
    for n in [1, 2, 6, 9, 11, 15, 20, 26, 33, 40, 47] {
        let folder = Folder::new(&format!("wait-{n}"));
        let mut child = start(&["--wait", &n.to_string()], &folder.0, SCRIPT);
        let mut lines = BufReader::new(child.stdout.take().expect("its standard output")).lines();
        let mut said = String::new();
        loop {
            let line = lines.next().expect("it waits before it ends").expect("plain text");
            if line == "waiting" {
                break;
            }
            said += &(line + "\n");
        }
        child.kill().expect("a signal sent");
        assert_eq!(child.wait().expect("its end").signal(), Some(SIGKILL), "store {n}");
        check(&folder, n, &said);
    }
}

// An opening is no call with stores: what it changed goes to disk file by file, and killed between two files it comes to the same in the end.
#[test]
fn killed_inside_an_opening() {
    let mut kills = 0;
    for n in 1..=47 {
        let left = model(n).expect("a store of the script");
        let (lines, after) = reopened(&left);
        for file in 1..=left.iter().zip(&after).filter(|(old, new)| old != new).count() {
            let folder = Folder::new(&format!("opening-{n}-{file}"));
            let (output, _) = finish(start(&["--stop", &n.to_string()], &folder.0, SCRIPT));
            assert_eq!(output.status.signal(), Some(SIGKILL), "store {n}");
            let (output, text) = finish(start(&["--stop-opening", &file.to_string()], &folder.0, ""));
            assert_eq!((output.status.signal(), text.as_str()), (Some(SIGKILL), ""), "store {n}, file {file}");
            let (output, text) = finish(start(&[], &folder.0, ""));
            assert!(output.status.success() && text.starts_with("R 0\n"), "store {n}, file {file}: {text}");
            assert!(on_disk(&folder.0).expect("three files") == after, "files of store {n}, file {file}");
            assert_eq!(text, lines, "store {n}, file {file}");
            kills += 1;
        }
    }
    assert!(kills > 47, "{kills} kills inside openings");
}

// ---- a full disk, two at once, a new folder

// The system itself refuses a log of over 4,096 bytes: the image that commit appends does not fit, half of it is written, and the log must get its old length back.
#[test]
fn a_file_that_may_not_grow_leaves_a_store_that_opens() {
    let folder = Folder::new("full");
    let carry = command(env!("CARGO_BIN_EXE_carry"));
    let mut limited = std::process::Command::new("sh");
    // In blocks of 512 bytes. Without the trap the signal would end the process at the first byte too many.
    limited
        .args(["-c", "trap '' XFSZ; ulimit -f 8; exec \"$0\" \"$@\""])
        .arg(carry.get_program())
        .args(carry.get_args());
    limited.arg(&folder.0).stdin(Stdio::piped()).stdout(Stdio::piped()).stderr(Stdio::piped());
    let mut child = limited.spawn().expect("a shell");
    child.stdin.take().expect("its standard input").write_all(SCRIPT.as_bytes()).expect("a script is taken");
    let (output, text) = finish(child);
    let said = String::from_utf8_lossy(&output.stderr).into_owned();
    assert_eq!(output.status.code(), Some(3), "{said}");
    assert!(said.contains("store.db.wal: ") && said.contains("set back to its 17 bytes and synced"), "{said}");
    // The first begin has two stores; the first image is the third.
    assert_eq!(text.lines().filter(|line| line.starts_with("R 0")).count(), 6, "{text}");
    check(&folder, 3, &text);
}

#[test]
fn one_process_to_a_folder() {
    let folder = Folder::new("two");
    let mut first = start(&["--wait", "3"], &folder.0, SCRIPT);
    let mut lines = BufReader::new(first.stdout.take().expect("its standard output")).lines();
    assert!(lines.any(|line| line.expect("plain text") == "waiting"));
    let second = command(env!("CARGO_BIN_EXE_carry")).arg(&folder.0).stdin(Stdio::null()).output().expect("carry runs");
    // Killed, the first one leaves no lock behind.
    first.kill().expect("a signal sent");
    first.wait().expect("its end");
    let said = String::from_utf8_lossy(&second.stderr).into_owned();
    assert_eq!((second.status.code(), second.stdout.len()), (Some(3), 0), "{said}");
    assert!(said.contains("another process keeps the store"), "{said}");
    check(&folder, 3, "S - T 0 X -");
}

#[test]
fn a_folder_in_folders_that_are_missing() {
    let folder = Folder::new("deep");
    let (output, text) = finish(start(&[], &folder.0.join("a/b"), "begin 1\n"));
    assert!(output.status.success(), "{text}");
    assert_eq!(on_disk(&folder.0.join("a/b")).expect("three files")[0].len(), 17);
}

// Without a kill, the files are those of the whole script, and they open again.
#[test]
fn not_killed() {
    let folder = Folder::new("whole");
    let (output, text) = finish(start(&["--stop", "48"], &folder.0, SCRIPT));
    assert!(output.status.success(), "{text}");
    let mut executor = fresh(&Default::default());
    executor.act(&Action::Open);
    for (_, command) in parse(SCRIPT).expect("a script") {
        executor.run(&command).expect("a call");
    }
    assert!(on_disk(&folder.0).expect("three files") == contents(executor.files()));
    let (output, lines) = finish(start(&[], &folder.0, ""));
    assert!(output.status.success());
    keeps(&text, &lines, 48);
    assert_eq!(entries(&lines), ["1:C:0", "2:A", "5:A", "7:C:0", "9:C:0", "11:A"].map(str::to_string)[1..]);
}
