//! What the library tells of a call's stores, held against what the call does: on made-up calls, the cut at each k differs from the one before in what is told and
//! nowhere else, the cut at the count is what the whole call leaves, and a refusal is the same for each k.
use nyotmelang::{Call, File, Files, Kind, Sizes, Store, TransactionId};

const SIZES: Sizes = Sizes { log: 24576, db: 32768, clog: 64, frames: 16384 };

struct Dice(u64);

impl Dice {
    fn below(&mut self, n: u64) -> u64 {
        self.0 ^= self.0 << 13;
        self.0 ^= self.0 >> 7;
        self.0 ^= self.0 << 17;
        (self.0 >> 11) % n
    }

    fn call(&mut self) -> Call {
        match self.below(9) {
            0 | 1 => Call::Begin(TransactionId(self.below(300))),
            2..=4 => Call::Flush(self.below(9) as u32),
            5 => Call::Commit,
            6 | 7 => Call::Rollback((0..self.below(3)).map(|_| self.below(9) as u32).collect()),
            _ => Call::Advance(TransactionId(self.below(12))),
        }
    }
}

fn file_of(kind: Kind) -> File {
    match kind {
        Kind::Append | Kind::Truncation => File::Log,
        Kind::Page => File::Database,
        Kind::Clog => File::Clog,
    }
}

// From one cut to the next: a file is as it was, or is the one that is told of, changed inside the told bytes, with zeros in a gap before them.
fn check_store(store: &Store, files: &Files, call: &Call, k: usize, before: &Files, after: &Files) {
    let told = store.told(files, call, k).expect("accepted").expect("a store up to the count");
    for file in [File::Log, File::Database, File::Clog] {
        let (old, new) = (before.content(file), after.content(file));
        if file != file_of(told.kind) {
            assert!(old == new, "{call:?}, store {k}: another file than told");
            continue;
        }
        let end = told.offset + told.length;
        assert!(end <= new.len() && (told.kind == Kind::Truncation || old.len() <= new.len()), "{call:?}, store {k}");
        assert!(new.len() == if told.kind == Kind::Truncation { 8 } else { old.len().max(end) }, "{call:?}, store {k}");
        for (i, byte) in new.iter().enumerate().filter(|(i, _)| !(told.offset..end).contains(i)) {
            assert_eq!(*byte, old.get(i).copied().unwrap_or(0), "{call:?}, store {k}, byte {i}");
        }
    }
}

fn same_files(a: &Files, b: &Files) -> bool {
    let same = |file| a.buffer(file) == b.buffer(file);
    a.lengths() == b.lengths() && same(File::Log) && same(File::Database) && same(File::Clog)
}

fn cut(store: &Store, files: &Files, call: &Call, k: usize) -> Files<'static> {
    let mut left = Files::new(SIZES);
    for file in [File::Log, File::Database, File::Clog] {
        left.buffer_mut(file).copy_from_slice(files.buffer(file));
    }
    left.frames_mut().copy_from_slice(files.frames());
    left.set_lengths(files.lengths());
    store.clone().cut(&mut left, call, k).expect("accepted");
    left
}

// One call, cut everywhere, then made; how many stores it has.
fn check_call(store: &mut Store, files: &mut Files, call: &Call) -> usize {
    let Ok(count) = store.count(files, call) else {
        let refusal = store.count(files, call).expect_err("refused");
        assert_eq!(store.told(files, call, 1), Err(refusal), "{call:?}");
        let (bytes, old) = (store.clone(), files.clone());
        assert_eq!(store.clone().cut(files, call, 1), Err((refusal, bytes.clone())), "{call:?}");
        assert_eq!(store.call(files, call), Err(refusal), "{call:?}");
        assert!(*store == bytes && same_files(files, &old) && files.frames() == old.frames(), "{call:?}");
        return 0;
    };
    let cuts: Vec<_> = (0..=count + 1).map(|k| cut(store, files, call, k)).collect();
    assert!(same_files(&cuts[0], files), "{call:?} cut at 0");
    for k in 1..=count {
        check_store(store, files, call, k, &cuts[k - 1], &cuts[k]);
    }
    assert_eq!((store.told(files, call, 0), store.told(files, call, count + 1)), (Ok(None), Ok(None)), "{call:?}");
    store.call(files, call).expect("accepted");
    assert!(same_files(&cuts[count], files) && same_files(&cuts[count + 1], files), "{call:?} cut at its end");
    count
}

#[test]
fn stores_are_what_is_told() {
    let (mut dice, mut stores, mut refused) = (Dice(20261115), 0, 0);
    for _ in 0..150 {
        let mut files = Files::filled(SIZES, 0xEE);
        let mut store = Store::open(&mut files).expect("empty files");
        for _ in 0..dice.below(30) {
            if dice.below(2) == 0 {
                let (page, seed) = (dice.below(9) as u32, dice.below(256) as u8);
                refused += store.write_page(&mut files, page, &[seed; 4096]).is_err() as usize;
            }
            let call = dice.call();
            refused += store.count(&files, &call).is_err() as usize;
            stores += check_call(&mut store, &mut files, &call);
        }
    }
    assert!(stores > 1000 && refused > 100, "{stores} stores, {refused} refusals");
}
