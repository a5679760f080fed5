//! The wrapper itself: refusals by name, lengths after each call, transactions that come back, borrowed buffers, scripts.
use nyotmelang::executor::run_script;
use nyotmelang::{
    CommitTime, Entry, File, Files, Output, Refusal, Sizes, Status, Store, Transaction, TransactionId, Words, REFUSALS,
};

const SIZES: Sizes = Sizes { log: 16384, db: 32768, clog: 64, frames: 8192 };

#[test]
fn refusals_have_their_numbers() {
    let numbers: Vec<u8> = (1..=14).chain(19..=24).collect();
    assert_eq!(REFUSALS.map(Refusal::number)[..], numbers);
    for number in 0..=u8::MAX {
        let refusal = Refusal::from_number(number);
        assert_eq!(refusal.is_some(), numbers.contains(&number), "{number}");
        assert!(refusal.is_none_or(|r| r.to_string().starts_with(&format!("refused with {number}: "))), "{number}");
    }
}

#[test]
fn a_torn_opening_leaves_the_images_before_it() {
    let mut files = Files::new(SIZES);
    files.append(File::Log, b"AEROWAL2\x01\x01\0\0\0");
    files.append(File::Log, &[5; 4096]);
    files.append(File::Log, &[2, 9]);
    assert_eq!(Store::open(&mut files), Err(Refusal::Torn));
    assert_eq!((files.len(File::Log), files.len(File::Database)), (8 + 4101 + 2, 8192));
    assert_eq!(files.content(File::Database)[4096..], [5; 4096]);
}

#[test]
fn a_refused_transaction_comes_back() {
    let mut files = Files::new(SIZES);
    let mut store = Store::open(&mut files).expect("empty files");
    let unsorted = Transaction::new(TransactionId(4), &[2, 1]);
    assert_eq!(store.install(&files, unsorted.clone()), Err((Refusal::OutOfForm, unsorted)));
    let (first, second) = (Transaction::new(TransactionId(4), &[1, 2]), Transaction::new(TransactionId(5), &[]));
    assert_eq!(store.install(&files, first.clone()), Ok(()));
    assert_eq!(store.install(&files, second.clone()), Err((Refusal::Occupied, second)));
    assert_eq!(store.uninstall(&files), Ok(Some(first)));
    assert_eq!(store.uninstall(&files), Ok(None));
}

#[test]
fn the_table_three_ways() {
    let mut files = Files::new(SIZES);
    let mut store = Store::open(&mut files).expect("empty files");
    for id in [9, 3, 200] {
        store.begin(&mut files, TransactionId(id)).expect("a begin");
    }
    let entry = |id| Entry { id: TransactionId(id), status: Status::Active };
    let all = vec![entry(3), entry(9), entry(200)];
    assert_eq!((store.table(&files), store.entries()), (Ok(all.clone()), all.clone()));
    assert_eq!(store.count_entries(&files), Ok(3));
    let one_by_one: Vec<_> = (0..4).map(|i| store.entry(&files, i).expect("accepted")).collect();
    assert_eq!(one_by_one, [Some(all[0]), Some(all[1]), Some(all[2]), None]);
    assert_eq!(store.table_within(&files, 2), Err(Refusal::SliceShort));
    // More room than memory could hold is no harm: the table never needs it.
    assert_eq!(store.table_within(&files, usize::MAX), Ok(all));
}

#[test]
fn borrowed_buffers_are_written() {
    let (mut log, mut db, mut clog, mut frames) = (vec![0; 9000], vec![0; 8192], vec![0; 16], vec![0; 8192]);
    let mut files = Files::lent(&mut log, &mut db, &mut clog, &mut frames);
    let mut store = Store::open(&mut files).expect("empty files");
    store.write_page(&mut files, 1, &[3; 4096]).expect("a write");
    store.flush(&mut files, 1).expect("a flush");
    assert_eq!((files.len(File::Log), files.len(File::Database)), (8 + 4101, 8192));
    assert_eq!((&log[..8], &db[4096..], &clog[..8]), (&b"AEROWAL2"[..], &[3; 4096][..], &b"AEROCLG1"[..]));
}

// What README warns of: an opening takes a clog in its second form for a damaged one and resets it. Moved back before, nothing is lost.
#[test]
fn an_opening_resets_the_second_form() {
    let mut files = Files::new(SIZES);
    let mut store = Store::open(&mut files).expect("empty files");
    store.begin(&mut files, TransactionId(5)).expect("a begin");
    store.commit(&mut files).expect("a commit");
    let (mut second, mut first) = (Output::filled(64, 0), Output::filled(64, 0));
    files.clog_to_second(TransactionId(5), &mut second).expect("the second form");
    second.to_first(&mut first).expect("the old form");
    let reopened = |clog: &Output| {
        let mut files = files.clone();
        files.set_len(File::Clog, 0);
        files.append(File::Clog, clog.content());
        let entries = Store::open(&mut files).expect("accepted, alas").entries();
        (entries, files.content(File::Clog).to_vec())
    };
    let kept = Entry { id: TransactionId(5), status: Status::Committed(CommitTime(0)) };
    assert_eq!(reopened(&second), (vec![], b"AEROCLG1".to_vec()));
    assert_eq!(reopened(&first), (vec![kept], b"AEROCLG1\0\x08".to_vec()));
}

// The greatest base fills the largest old form with zeros; one packed byte more has no place in it, however large the output is.
#[test]
fn the_largest_old_form() {
    let mut second = Output::filled(64, 0);
    second.append(b"\0\0\0\x09\x02\0\0\0\0\0\x3F\xFF\xE0");
    let mut first = Output::filled(2_000_000, 0xEE);
    assert_eq!(second.to_first(&mut first), Ok(1_048_576));
    assert!(first.content().starts_with(b"AEROCLG1") && first.content()[8..].iter().all(|byte| *byte == 0));
    assert_eq!(second.record_status(TransactionId(4_194_272), Status::Aborted), Ok(()));
    let before = first.clone();
    assert_eq!((second.to_first(&mut first), first), (Err(Refusal::SliceShort), before));
}

// One byte of a word of a store.
fn change(words: &mut Words, at: usize, x: u64) {
    let mixed = |word: u64| word & !(255 << (8 * (x >> 61))) | (x & 255) << (8 * (x >> 61));
    match at {
        0..12 => words.head[at] = mixed(words.head[at]),
        12..780 => words.rows[(at - 12) / 3][at % 3] = mixed(words.rows[(at - 12) / 3][at % 3]),
        780..844 => words.resident[at - 780] = mixed(words.resident[at - 780].into()) as u32,
        _ => words.touched[at - 844] = mixed(words.touched[at - 844]),
    }
}

// A store whose words are changed at random, and files of any length: answered, whatever comes.
#[test]
fn any_bytes_are_answered() {
    let mut x = 88172645463325252u64;
    let mut accepted = 0;
    for round in 0..3000 {
        let mut files = Files::filled(SIZES, 0xEE);
        let mut store = Store::open(&mut files).expect("empty files");
        for _ in 0..round % 5 {
            x ^= x << 13;
            x ^= x >> 7;
            x ^= x << 17;
            change(store.words_mut(), (x >> 20) as usize % 908, x);
        }
        let before = store.clone();
        let done = store.begin(&mut files, TransactionId(x % 250));
        accepted += done.is_ok() as usize;
        assert!(done.is_ok() || store == before, "{done:?}");
    }
    assert!((600..3000).contains(&accepted), "{accepted} of 3000 accepted");
}

// Each script of host/scripts against the transcript beside it.
#[test]
fn recorded_transcripts() {
    let folder = concat!(env!("CARGO_MANIFEST_DIR"), "/../scripts");
    let mut scripts = 0;
    for file in std::fs::read_dir(folder).expect("the scripts") {
        let path = file.expect("a file").path();
        if path.extension().is_some_and(|ending| ending == "txt") {
            let read = |path| std::fs::read_to_string(path).expect("its text");
            let (told, wanted) = (run_script(&read(path.clone())).expect("a script"), read(path.with_extension("out")));
            let first = told.lines().zip(wanted.lines()).position(|(a, b)| a != b);
            assert!(told == wanted, "{}: first other line {first:?}", path.display());
            scripts += 1;
        }
    }
    assert!(scripts >= 4);
}

#[test]
fn malformed_lines() {
    let wrong = ["nothing", "begin", "begin x", "begin -1", "begin +1", "begin 1 2", "begin 18446744073709551616"];
    let also =
        ["read 4294967296", "install 4", "xl 0", "xl 0g", "told begin 1", "cut 1 mktx 0 5", "table 65537", "case"];
    let pages = ["pgout 1", "pgin", "xo 0", "xobuf"];
    for line in wrong.into_iter().chain(also).chain(pages) {
        let script = format!("open\n{line}\n");
        assert_eq!(run_script(&script).map_err(|m| m.line), Err(2), "{line}");
    }
    assert_eq!(run_script("case a\nxlcut 1\n").map_err(|m| m.line), Err(2));
    assert_eq!(run_script("case a\nxl 00\nxlset 1 00\n").map_err(|m| m.line), Err(3));
    assert_eq!(run_script("case a\nxobuf 1\nxoset 0 00\n").map_err(|m| m.line), Err(3));
    assert!(run_script("# a comment\n\n   \ncase a\nxl 00\nxlset 0 ff\n").is_ok());
}
