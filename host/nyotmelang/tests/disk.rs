//! A store on a disk that is made up (`under`): what is on it after each sync, in which order, what is left where power goes or a write fails, and that no sync can be
//! left out. The program itself is killed in `kill`.
mod under;

use nyotmelang::disk::{Disk, Left, Moment, Unkept};
use nyotmelang::executor::Executor;
use nyotmelang::script::{parse, Action, Command};
use nyotmelang::transcript::{files_line, store_line, Answer};
use nyotmelang::{Files, Sizes};
use std::io;
use std::path::Path;
use under::{place, Contents, Platter, Under, FILES};

const SIZES: Sizes = Sizes { log: 32768, db: 32768, clog: 64, frames: 32768 };
const FOLDER: &str = "/above/store";

// Every call with stores, and one opening more, which finds a log.
const SCRIPT: &str = "open\nbegin 1\nwrite 1 5\nwrite 3 9\nflush 1\nflush 3\ncommit\nbegin 20\nwrite 3 77\nflush 3\nwrite 1 8\nflush 1\nrollback\n\
    write 4 3\nflush 4\nalloctx\nbegin 5\nadvance 2\nrollback\nbegin 7\nopen\ncommit\n";

fn commands(script: &str) -> Vec<Command> {
    parse(script).expect("a script").into_iter().map(|(_, command)| command).collect()
}

// ---- the library's own account

fn executor(contents: &Contents) -> Executor {
    let mut files = Files::new(SIZES);
    for file in FILES {
        files.append(file, &contents[place(file)]);
    }
    Executor::with_files(files)
}

fn contents(executor: &Executor) -> Contents {
    FILES.map(|file| executor.files().content(file).to_vec())
}

// What opening these files tells, and what it leaves.
fn opened(files: &Contents) -> (String, Contents) {
    let mut executor = executor(files);
    let answer = executor.act(&Action::Open);
    (format!("R {answer}\n{}", store_line(executor.store(), executor.files())), contents(&executor))
}

// The files before each store of the script, and after the last.
fn cuts(script: &str) -> Vec<Contents> {
    let (mut executor, mut cuts) = (executor(&Contents::default()), Vec::new());
    for command in commands(script) {
        let Command::Action(action) = command else { panic!("a pager's call") };
        if let (Action::Stores(call), Some(store)) = (&action, executor.store()) {
            for k in 0..store.count(executor.files(), call).expect("an accepted call") {
                let mut files = executor.files().clone();
                store.clone().cut(&mut files, call, k).expect("an accepted call");
                cuts.push(FILES.map(|file| files.content(file).to_vec()));
            }
        }
        assert!(matches!(executor.act(&action), Answer::Accepted(_)), "{action:?}");
    }
    cuts.push(contents(&executor));
    cuts
}

// ---- a run on the made-up disk

// What was wrong: a store that began while what came before it was not kept, and a name that does not stay.
fn run(under: &Under, script: &str) -> (io::Result<()>, Vec<String>) {
    let (cuts, mut faults) = (cuts(script), Vec::new());
    let done = {
        let gate = |moment| {
            let platter = under.0.borrow();
            if let Moment::Store(n) = moment {
                if platter.kept != cuts[n - 1] {
                    faults.push(format!("store {n}: what is kept is not what the stores before it leave"));
                }
            }
            if !platter.stays(Path::new(FOLDER)) {
                faults.push(format!("{moment:?}: a name that does not stay"));
            }
        };
        on(under, script, gate)
    };
    under.unlock();
    let platter = under.0.borrow();
    faults.extend(platter.disorder.iter().cloned());
    if done.is_ok() && (!platter.settled() || platter.kept != platter.seen) {
        faults.push("answered, and not kept".to_string());
    }
    drop(platter);
    (done, faults)
}

fn on(under: &Under, script: &str, gate: impl FnMut(Moment)) -> io::Result<()> {
    let mut disk = Disk::over(under.clone(), Path::new(FOLDER), SIZES, gate)?;
    for command in commands(script) {
        if let Err(error) = disk.run(&command) {
            // The memory is ahead of the disk: nothing more is done.
            let changes = under.0.borrow().changes;
            for line in ["alloctx", "begin 9", "open"] {
                assert!(disk.run(&commands(line)[0]).is_err(), "{line} after an error");
            }
            assert_eq!(changes, under.0.borrow().changes);
            return Err(error);
        }
        let platter = under.0.borrow();
        let now = FILES.map(|file| disk.files().content(file).to_vec());
        assert!(platter.seen == now, "{command:?}: the disk has other bytes than the buffers");
    }
    Ok(())
}

fn whole() -> Platter {
    let under = Under::new(Platter::default());
    let (done, faults) = run(&under, SCRIPT);
    assert!(done.is_ok() && faults.is_empty(), "{done:?}, {faults:?}");
    under.0.take()
}

// ---- syncs

#[test]
fn no_sync_can_be_left_out() {
    let syncs = whole().syncs;
    // The folders /above and /above/store, the names in it, log and clog in each of the two openings, and each store that changes a byte.
    let stores = cuts(SCRIPT).windows(2).filter(|two| two[0] != two[1]).count();
    assert_eq!(syncs, 3 + 4 + stores);
    for n in 1..=syncs {
        let under = Under::new(Platter::without(n));
        let (done, faults) = run(&under, SCRIPT);
        assert!(done.is_ok() && !faults.is_empty(), "sync {n} of {syncs} was left out, and nothing was seen");
    }
}

// The process that made the folder died before the sync of the folder above it.
#[test]
fn a_folder_that_is_there_need_not_stay() {
    let under = Under::new(Platter::default());
    for folder in ["/above", FOLDER] {
        nyotmelang::layer::Layer::make_folder(&mut under.clone(), Path::new(folder)).expect("made");
    }
    nyotmelang::layer::Layer::sync_folder(&mut under.clone(), Path::new("/")).expect("synced");
    assert!(!under.0.borrow().stays(Path::new(FOLDER)));
    let (done, faults) = run(&under, "open\n");
    assert!(done.is_ok() && faults.is_empty() && under.0.borrow().stays(Path::new(FOLDER)), "{done:?}, {faults:?}");
}

// ---- power goes

// Where a log or clog has another magic, and bytes behind it that would say something under the right one; a log that is replayed; odd lengths.
fn starts() -> Vec<Contents> {
    let mut meta = vec![0; 4096];
    nyotmelang::put_meta(
        &mut meta,
        0,
        nyotmelang::Counters {
            next: nyotmelang::TransactionId(6),
            time: nyotmelang::CommitTime(2),
            mark: nyotmelang::TransactionId(0),
        },
    );
    let log = |magic: &[u8], rest: &[u8]| [magic, rest].concat();
    let begun = b"\x02\x05\0\0\0\0\0\0\0\x03\x09\0\0\0\0\0\0\0\x04\0\0\0\0\0\0\0\x02\x21\0\0\0\0\0\0\0";
    let image = [&[1, 2, 0, 0, 0][..], &[7; 4096]].concat();
    vec![
        [Vec::new(), Vec::new(), b"AEROCLG0AAAAAAAA".to_vec()],
        [Vec::new(), meta.clone(), b"AEROCLG0AAAAAAAA".to_vec()],
        [log(b"AEROWAL0", begun), meta.clone(), b"AEROCLG1\x55".to_vec()],
        [log(b"AEROWAL2", begun), meta.clone(), b"AEROCLG1\x55\x99".to_vec()],
        [log(b"AEROWAL2", &[&image, &begun[..], &image].concat()), meta.clone(), b"AEROCLG".to_vec()],
        [log(b"AEROWAL2", begun), Vec::new(), b"AEROCLG1\x55\x99".to_vec()],
        [b"AER".to_vec(), meta, b"AEROCLG1AAAA".to_vec()],
    ]
}

#[test]
fn power_goes_inside_an_opening() {
    let mut points = 0;
    for (i, start) in starts().into_iter().enumerate() {
        let (told, after) = opened(&start);
        assert!(told.starts_with("R 0\n"), "{i}: {told}");
        let under = Under::new(Platter::with(start, Path::new(FOLDER)));
        on(&under, "open\n", |_| {}).expect("a disk that works");
        let platter = under.0.take();
        assert!(platter.kept == after, "{i}: other files than the library leaves");
        for left in platter.crashes {
            let (again, files) = opened(&left);
            // From the whole opening on there is no log any more that has the times.
            let wanted = if left == after { &opened(&after).0 } else { &told };
            assert!(again == *wanted && files == after, "{i}: {again}, not {wanted}");
            points += 1;
        }
    }
    assert!(points >= 25, "{points} points");
}

#[test]
fn power_goes_inside_a_call() {
    let cuts = cuts(SCRIPT);
    let platter = whole();
    assert!(platter.crashes.len() >= cuts.len());
    let strangers: Vec<_> = platter.crashes.iter().filter(|left| !cuts.contains(left)).collect();
    // What the two openings leave on the way is no cut of a call; it opens to the same.
    for left in strangers {
        assert!(opened(left).0.starts_with("R 0\n"));
    }
}

// ---- a write fails

fn unkept(done: io::Result<()>) -> Unkept {
    let error = done.expect_err("a write that failed");
    *error.into_inner().expect("what was left").downcast::<Unkept>().expect("a store")
}

// The disk is full at each change in turn: the file is as before that store, the error says so, and the next opening finds what the stores before it left.
#[test]
fn a_full_disk_leaves_a_store_that_opens() {
    let (cuts, whole) = (cuts(SCRIPT), whole());
    let (mut back, mut shortened) = (0, 0);
    for n in 1..=whole.changes {
        let under = Under::new(Platter::failing(n, false));
        let mut stores = 0;
        let done = on(&under, SCRIPT, |moment| stores = if let Moment::Store(k) = moment { k } else { stores });
        under.unlock();
        let (failure, left) = (unkept(done), under.0.borrow().kept.clone());
        assert_eq!(failure.error.kind(), io::ErrorKind::StorageFull);
        let before = &left[place(failure.file)];
        match failure.left {
            Left::Back(len) => {
                assert_eq!(before.len(), len, "change {n}");
                assert!(failure.to_string().contains(&format!("set back to its {len} bytes and synced")), "{failure}");
                back += 1;
            }
            Left::Either => {
                assert!(failure.to_string().contains("old length or its new one"), "{failure}");
                shortened += 1;
            }
            Left::Torn(..) => panic!("change {n}: {failure}"),
        }
        assert!(under.0.borrow().seen == left && under.0.borrow().settled(), "change {n}");
        // In the second opening the files are on the way from one cut to the next.
        assert!(stores == 0 || left == cuts[stores - 1] || left == cuts[stores] || n + 3 > whole.changes, "change {n}");
        let (told, files) = opened(&left);
        assert!(told.starts_with("R 0\n"), "change {n}: {told}");
        on(&under, "open\n", |_| {}).expect("a disk that works again");
        assert!(under.0.borrow().kept == files, "change {n}");
    }
    // The log is cut by the commit, by the rollback with data pages, and by the second opening.
    assert_eq!((back, shortened), (whole.changes - 3, 3));
}

#[test]
fn a_disk_that_is_gone_is_told_so() {
    let under = Under::new(Platter::failing(5, true));
    let failure = unkept(on(&under, SCRIPT, |_| {}));
    assert!(matches!(failure.left, Left::Torn(..)), "{failure}");
    assert!(failure.to_string().contains("could not be set back"), "{failure}");
}

// ---- two at once

#[test]
fn one_store_on_disk_to_a_folder() {
    let under = Under::new(Platter::default());
    let first = Disk::over(under.clone(), Path::new(FOLDER), SIZES, |_| {}).expect("a folder of its own");
    let second = Disk::over(under.clone(), Path::new(FOLDER), SIZES, |_| {});
    assert_eq!(second.err().map(|error| error.kind()), Some(io::ErrorKind::WouldBlock));
    assert_eq!(files_line(first.files()), "D 0 00000000 L 0 00000000 C 0 00000000");
}
