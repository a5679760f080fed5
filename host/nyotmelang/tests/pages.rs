//! Status pages at the largest clog that there is: its pages have more bytes than a clog's body may have.
use nyotmelang::{read_status_pages, File, Files, Refusal, Sizes, TransactionId, STATUS_PAGE_BYTES};

const LIMIT: usize = 1 << 20;

fn slot(body: &[u8], id: usize) -> u8 {
    body[id / 4] >> (2 * (id % 4)) & 3
}

// Absent, Committed and Aborted by turns of 5, so that no two bytes in a row are the same.
fn body() -> Vec<u8> {
    let code = |id: usize| [0, 2, 3, 2, 3][id % 5];
    (0..LIMIT - 8).map(|byte| (0..4).map(|m| code(4 * byte + m) << (2 * m)).sum()).collect()
}

fn clog(room: usize, body: &[u8]) -> Files<'static> {
    let mut files = Files::new(Sizes { log: 0, db: 0, clog: room, frames: 0 });
    files.append(File::Clog, b"AEROCLG1");
    files.append(File::Clog, body);
    files
}

#[test]
fn the_largest_clog_there_and_back() {
    let body = body();
    let files = clog(LIMIT, &body);
    let mut pages = vec![0xEE; 128 * STATUS_PAGE_BYTES + 1];
    for mark in [0, 1, 32767, 32768, 4 * body.len() - 1, 4 * body.len(), usize::MAX] {
        assert_eq!(files.write_status_pages(TransactionId(mark as u64), &mut pages), Ok(LIMIT));
        let mut back = vec![0xEE; LIMIT];
        assert_eq!(read_status_pages(&pages[..LIMIT], &mut back), Ok(LIMIT));
        assert!((0..4 * body.len()).all(|id| slot(&back, id) == if id < mark { 2 } else { slot(&body, id) }), "{mark}");
        assert!(back[body.len()..].iter().all(|byte| *byte == 0), "{mark}");
    }
    assert_eq!(pages[LIMIT], 0xEE);
    let (mark, short) = (TransactionId(0), LIMIT - 1);
    assert_eq!(files.write_status_pages(mark, &mut pages[..short]), Err(Refusal::SliceShort));
    assert_eq!(clog(LIMIT + 1, &body).write_status_pages(mark, &mut pages), Err(Refusal::Unfit));
}

#[test]
fn an_active_slot_in_the_last_byte() {
    let mut body = body();
    let last = body.len() - 1;
    body[last] = 0x40;
    let (files, id) = (clog(LIMIT, &body), 4 * last as u64 + 3);
    let mut pages = vec![0xEE; LIMIT];
    assert_eq!(files.write_status_pages(TransactionId(id), &mut pages), Err(Refusal::ActiveAbove));
    assert!(pages.iter().all(|byte| *byte == 0xEE));
    assert_eq!(files.write_status_pages(TransactionId(id + 1), &mut pages), Ok(LIMIT));
    assert_eq!((pages[last], pages[last + 1]), (0x55, 0));
}
