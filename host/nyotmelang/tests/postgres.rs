//! Status pages that a PostgreSQL server wrote, read by the library and held against what the server itself answered of each id. `oracle/pg-sample` recorded both.
use nyotmelang::{read_status_pages, File, Files, Refusal, Sizes, TransactionId};
use std::collections::BTreeMap;
use std::fs;

const FOLDER: &str = concat!(env!("CARGO_MANIFEST_DIR"), "/../postgres");

fn segment(name: &str) -> Vec<u8> {
    fs::read(format!("{FOLDER}/{name}")).expect("pages")
}

// Runs of ids as `FIRST LAST STATUS`.
fn statuses() -> Vec<(usize, usize, String)> {
    let text = fs::read_to_string(format!("{FOLDER}/statuses")).expect("statuses");
    let number = |word: &str| word.parse::<usize>().expect("an id");
    text.lines()
        .filter(|line| !line.starts_with('#'))
        .map(|line| {
            let words: Vec<_> = line.split(' ').collect();
            (number(words[0]), number(words[1]), words[2].to_string())
        })
        .collect()
}

// The slot of an id in a clog's body, in words.
fn told(body: &[u8], id: usize) -> &'static str {
    ["absent", "Active", "Committed", "Aborted"][(body[id / 4] >> (2 * (id % 4)) & 3) as usize]
}

#[test]
fn the_servers_pages_say_what_it_answers() {
    let (pages, runs) = (segment("segment"), statuses());
    let mut body = vec![0xEE; pages.len()];
    assert_eq!(read_status_pages(&pages, &mut body), Ok(16384));
    let mut held = BTreeMap::new();
    for (first, last, status) in &runs {
        for id in *first..=*last {
            // Of ids 1 and 2 the server answers without its pages; of ids before those that it still remembers it answers nothing.
            let wanted = match status.as_str() {
                _ if id < 3 => "absent",
                "committed" | "unknown" => "Committed",
                "aborted" => "Aborted",
                "in-progress" => "absent",
                other => panic!("{other}"),
            };
            assert_eq!(told(&body, id), wanted, "id {id}");
            *held.entry(status.clone()).or_insert(0) += 1;
        }
    }
    let next = runs.last().expect("a run").1 + 1;
    assert!((next..4 * body.len()).all(|id| told(&body, id) == "absent"));
    assert!(held["committed"] > 30000 && held["aborted"] > 400 && held["in-progress"] == 5, "{held:?}");
}

// With no id below the mark a clog of what was read writes the server's own bytes.
#[test]
fn the_servers_pages_are_written_again() {
    let pages = segment("segment");
    let mut body = vec![0xEE; pages.len()];
    read_status_pages(&pages, &mut body).expect("pages");
    let mut files = Files::new(Sizes { log: 0, db: 0, clog: 8 + body.len(), frames: 0 });
    files.append(File::Clog, b"AEROCLG1");
    files.append(File::Clog, &body);
    let mut again = vec![0xEE; pages.len()];
    assert_eq!(files.write_status_pages(TransactionId(0), &mut again), Ok(16384));
    assert!(again == pages);
}

// Six statuses of the second page are sub-committed: `oracle/pg-caught` stopped a server in the middle of a commit.
#[test]
fn a_segment_with_sub_committed_statuses_is_refused() {
    let pages = segment("caught");
    let mut body = vec![0xEE; pages.len()];
    assert_eq!(read_status_pages(&pages, &mut body), Err(Refusal::SubCommitted));
    assert_eq!(read_status_pages(&pages[..12288], &mut body), Err(Refusal::PartOfPage));
    assert_eq!(read_status_pages(&pages[..8192], &mut body[..8191]), Err(Refusal::SliceShort));
    assert!(body.iter().all(|byte| *byte == 0xEE));
    assert_eq!(read_status_pages(&pages[..8192], &mut body), Ok(8192));
    assert_eq!((told(&body, 32764), told(&body, 32765)), ("Committed", "absent"));
    assert!(body[8192..].iter().all(|byte| *byte == 0xEE));
}
