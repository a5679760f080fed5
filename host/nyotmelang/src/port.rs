//! The functions of the proved library as safe functions over slices. This is the only unsafe code of the package. A slice goes over as its pointer and its
//! length, an array or a number that is written as its pointer. The library reads and writes inside what it is lent and keeps no pointer; that what is written
//! overlaps with nothing else in a call is the borrow checker's part.
#![allow(unsafe_code, clippy::too_many_arguments)]

// A function is written down once, with Rust's types; the declaration for the linker and the call are made of that.
macro_rules! port {
    ($(fn $name:ident($($args:tt)*) -> $r:ty;)*) => { $(port!(@ $name $r [] [] [] $($args)*,);)* };
    (@ $n:ident $r:ty [$($s:tt)*] [$($e:ty,)*] [$($p:expr,)*] $(,)?) => {
        pub fn $n($($s)*) -> $r {
            extern "C" { fn $n($(_: $e),*) -> $r; }
            unsafe { $n($($p),*) }
        }
    };
    (@ $n:ident $r:ty [$($s:tt)*] [$($e:ty,)*] [$($p:expr,)*] $a:ident: &mut [$t:ty], $($rest:tt)*) => {
        port!(@ $n $r [$($s)* $a: &mut [$t],] [$($e,)* *mut $t, usize,] [$($p,)* $a.as_mut_ptr(), $a.len(),] $($rest)*);
    };
    (@ $n:ident $r:ty [$($s:tt)*] [$($e:ty,)*] [$($p:expr,)*] $a:ident: &[$t:ty], $($rest:tt)*) => {
        port!(@ $n $r [$($s)* $a: &[$t],] [$($e,)* *const $t, usize,] [$($p,)* $a.as_ptr(), $a.len(),] $($rest)*);
    };
    (@ $n:ident $r:ty [$($s:tt)*] [$($e:ty,)*] [$($p:expr,)*] $a:ident: &[$t:ty; $k:literal], $($rest:tt)*) => {
        port!(@ $n $r [$($s)* $a: &[$t; $k],] [$($e,)* *const $t,] [$($p,)* $a.as_ptr(),] $($rest)*);
    };
    (@ $n:ident $r:ty [$($s:tt)*] [$($e:ty,)*] [$($p:expr,)*] $a:ident: &mut [$t:ty; $k:literal], $($rest:tt)*) => {
        port!(@ $n $r [$($s)* $a: &mut [$t; $k],] [$($e,)* *mut $t,] [$($p,)* $a.as_mut_ptr(),] $($rest)*);
    };
    (@ $n:ident $r:ty [$($s:tt)*] [$($e:ty,)*] [$($p:expr,)*] $a:ident: &mut $t:ident, $($rest:tt)*) => {
        port!(@ $n $r [$($s)* $a: &mut $t,] [$($e,)* *mut $t,] [$($p,)* $a,] $($rest)*);
    };
    (@ $n:ident $r:ty [$($s:tt)*] [$($e:ty,)*] [$($p:expr,)*] $a:ident: $t:ident, $($rest:tt)*) => {
        port!(@ $n $r [$($s)* $a: $t,] [$($e,)* $t,] [$($p,)* $a,] $($rest)*);
    };
}

// The calls of a pager, on a store in its own struct: a head and three arrays.
#[rustfmt::skip]
port! {
    fn nyotmelang_pager_open(head: &mut [u64; 12], rows: &mut [[u64; 3]; 256], resident: &mut [u32; 64], touched: &mut [u64; 64], log_len: usize, db_len: usize, clog_len: usize, log: &mut [u8], db: &mut [u8], clog: &mut [u8], frames: &[u8], told: &mut usize) -> u8;
    fn nyotmelang_pager_begin(head: &mut [u64; 12], rows: &mut [[u64; 3]; 256], resident: &mut [u32; 64], touched: &mut [u64; 64], id: u64, log: &mut [u8], db: &mut [u8], clog: &mut [u8], frames: &mut [u8]) -> u8;
    fn nyotmelang_pager_flush(head: &mut [u64; 12], rows: &mut [[u64; 3]; 256], resident: &mut [u32; 64], touched: &mut [u64; 64], page: u32, log: &mut [u8], db: &mut [u8], clog: &mut [u8], frames: &mut [u8]) -> u8;
    fn nyotmelang_pager_commit(head: &mut [u64; 12], rows: &mut [[u64; 3]; 256], resident: &mut [u32; 64], touched: &mut [u64; 64], log: &mut [u8], db: &mut [u8], clog: &mut [u8], frames: &mut [u8]) -> u8;
    fn nyotmelang_pager_rollback(head: &mut [u64; 12], rows: &mut [[u64; 3]; 256], resident: &mut [u32; 64], touched: &mut [u64; 64], list: &[u32], log: &mut [u8], db: &mut [u8], clog: &mut [u8], frames: &mut [u8]) -> u8;
    fn nyotmelang_pager_advance(head: &mut [u64; 12], rows: &mut [[u64; 3]; 256], resident: &mut [u32; 64], touched: &mut [u64; 64], mark: u64, log: &mut [u8], db: &mut [u8], clog: &mut [u8], frames: &mut [u8]) -> u8;
    fn nyotmelang_pager_write_page(head: &mut [u64; 12], rows: &mut [[u64; 3]; 256], resident: &mut [u32; 64], touched: &mut [u64; 64], page: u32, bytes: &[u8; 4096], log: &[u8], db: &[u8], clog: &[u8], frames: &mut [u8]) -> u8;
    fn nyotmelang_pager_read_page(head: &mut [u64; 12], rows: &mut [[u64; 3]; 256], resident: &mut [u32; 64], touched: &mut [u64; 64], page: u32, bytes: &mut [u8; 4096], log: &[u8], db: &[u8], clog: &[u8], frames: &mut [u8]) -> u8;
    fn nyotmelang_pager_install(head: &mut [u64; 12], rows: &mut [[u64; 3]; 256], resident: &mut [u32; 64], touched: &mut [u64; 64], id: u64, pages: &[u32], log: &[u8], db: &[u8], clog: &[u8], frames: &[u8]) -> u8;
    fn nyotmelang_pager_uninstall(head: &mut [u64; 12], rows: &mut [[u64; 3]; 256], resident: &mut [u32; 64], touched: &mut [u64; 64], out: &mut [u32], log: &[u8], db: &[u8], clog: &[u8], frames: &[u8], values: &mut [u64; 4]) -> u8;
    fn nyotmelang_pager_allocate_id(head: &mut [u64; 12], rows: &mut [[u64; 3]; 256], resident: &mut [u32; 64], touched: &mut [u64; 64], log: &[u8], db: &[u8], clog: &[u8], frames: &[u8], id: &mut u64) -> u8;
    fn nyotmelang_pager_allocate_page(head: &mut [u64; 12], rows: &mut [[u64; 3]; 256], resident: &mut [u32; 64], touched: &mut [u64; 64], log: &[u8], db: &[u8], clog: &[u8], frames: &[u8], page: &mut u32) -> u8;
    fn nyotmelang_pager_table(head: &[u64; 12], rows: &[[u64; 3]; 256], resident: &[u32; 64], touched: &[u64; 64], out: &mut [[u64; 3]], log: &[u8], db: &[u8], clog: &[u8], frames: &[u8], entries: &mut usize) -> u8;
    fn nyotmelang_pager_entry_count(head: &[u64; 12], rows: &[[u64; 3]; 256], resident: &[u32; 64], touched: &[u64; 64], log: &[u8], db: &[u8], clog: &[u8], frames: &[u8], entries: &mut usize) -> u8;
    fn nyotmelang_pager_entry(head: &[u64; 12], rows: &[[u64; 3]; 256], resident: &[u32; 64], touched: &[u64; 64], i: usize, log: &[u8], db: &[u8], clog: &[u8], frames: &[u8], values: &mut [u64; 4]) -> u8;
}

// The five calls with stores: cut at the k-th, counted, told.
#[rustfmt::skip]
port! {
    fn nyotmelang_pager_begin_to(head: &[u64; 12], rows: &[[u64; 3]; 256], resident: &[u32; 64], touched: &[u64; 64], id: u64, k: usize, log: &mut [u8], db: &mut [u8], clog: &mut [u8], frames: &[u8], values: &mut [u64; 4]) -> u8;
    fn nyotmelang_pager_begin_count(head: &[u64; 12], rows: &[[u64; 3]; 256], resident: &[u32; 64], touched: &[u64; 64], id: u64, log: &[u8], db: &[u8], clog: &[u8], frames: &[u8], values: &mut [u64; 4]) -> u8;
    fn nyotmelang_pager_begin_told(head: &[u64; 12], rows: &[[u64; 3]; 256], resident: &[u32; 64], touched: &[u64; 64], id: u64, k: usize, log: &[u8], db: &[u8], clog: &[u8], frames: &[u8], values: &mut [u64; 4]) -> u8;
    fn nyotmelang_pager_flush_to(head: &[u64; 12], rows: &[[u64; 3]; 256], resident: &[u32; 64], touched: &[u64; 64], page: u32, k: usize, log: &mut [u8], db: &mut [u8], clog: &mut [u8], frames: &[u8], values: &mut [u64; 4]) -> u8;
    fn nyotmelang_pager_flush_count(head: &[u64; 12], rows: &[[u64; 3]; 256], resident: &[u32; 64], touched: &[u64; 64], page: u32, log: &[u8], db: &[u8], clog: &[u8], frames: &[u8], values: &mut [u64; 4]) -> u8;
    fn nyotmelang_pager_flush_told(head: &[u64; 12], rows: &[[u64; 3]; 256], resident: &[u32; 64], touched: &[u64; 64], page: u32, k: usize, log: &[u8], db: &[u8], clog: &[u8], frames: &[u8], values: &mut [u64; 4]) -> u8;
    fn nyotmelang_pager_commit_to(head: &[u64; 12], rows: &[[u64; 3]; 256], resident: &[u32; 64], touched: &[u64; 64], k: usize, log: &mut [u8], db: &mut [u8], clog: &mut [u8], frames: &[u8], values: &mut [u64; 4]) -> u8;
    fn nyotmelang_pager_commit_count(head: &[u64; 12], rows: &[[u64; 3]; 256], resident: &[u32; 64], touched: &[u64; 64], log: &[u8], db: &[u8], clog: &[u8], frames: &[u8], values: &mut [u64; 4]) -> u8;
    fn nyotmelang_pager_commit_told(head: &[u64; 12], rows: &[[u64; 3]; 256], resident: &[u32; 64], touched: &[u64; 64], k: usize, log: &[u8], db: &[u8], clog: &[u8], frames: &[u8], values: &mut [u64; 4]) -> u8;
    fn nyotmelang_pager_rollback_to(head: &[u64; 12], rows: &[[u64; 3]; 256], resident: &[u32; 64], touched: &[u64; 64], list: &[u32], k: usize, log: &mut [u8], db: &mut [u8], clog: &mut [u8], frames: &[u8], values: &mut [u64; 4]) -> u8;
    fn nyotmelang_pager_rollback_count(head: &[u64; 12], rows: &[[u64; 3]; 256], resident: &[u32; 64], touched: &[u64; 64], list: &[u32], log: &[u8], db: &[u8], clog: &[u8], frames: &[u8], values: &mut [u64; 4]) -> u8;
    fn nyotmelang_pager_rollback_told(head: &[u64; 12], rows: &[[u64; 3]; 256], resident: &[u32; 64], touched: &[u64; 64], list: &[u32], k: usize, log: &[u8], db: &[u8], clog: &[u8], frames: &[u8], values: &mut [u64; 4]) -> u8;
    fn nyotmelang_pager_advance_to(head: &[u64; 12], rows: &[[u64; 3]; 256], resident: &[u32; 64], touched: &[u64; 64], mark: u64, k: usize, log: &mut [u8], db: &mut [u8], clog: &mut [u8], frames: &[u8], values: &mut [u64; 4]) -> u8;
    fn nyotmelang_pager_advance_count(head: &[u64; 12], rows: &[[u64; 3]; 256], resident: &[u32; 64], touched: &[u64; 64], mark: u64, log: &[u8], db: &[u8], clog: &[u8], frames: &[u8], values: &mut [u64; 4]) -> u8;
    fn nyotmelang_pager_advance_told(head: &[u64; 12], rows: &[[u64; 3]; 256], resident: &[u32; 64], touched: &[u64; 64], mark: u64, k: usize, log: &[u8], db: &[u8], clog: &[u8], frames: &[u8], values: &mut [u64; 4]) -> u8;
}

// Log, clog, status pages and meta page by themselves.
#[rustfmt::skip]
port! {
    fn nyotmelang_log_start(log: &[u8], len: usize) -> usize;
    fn nyotmelang_log_read(log: &[u8], len: usize, at: usize, values: &mut [u64; 4]) -> u8;
    fn nyotmelang_log_append_begin(log: &mut [u8], len: usize, id: u64, values: &mut [u64; 4]) -> u8;
    fn nyotmelang_log_append_abort(log: &mut [u8], len: usize, id: u64, values: &mut [u64; 4]) -> u8;
    fn nyotmelang_log_append_commit(log: &mut [u8], len: usize, id: u64, time: u64, values: &mut [u64; 4]) -> u8;
    fn nyotmelang_log_append_checkpoint(log: &mut [u8], len: usize, values: &mut [u64; 4]) -> u8;
    fn nyotmelang_log_append_page(log: &mut [u8], len: usize, page: u32, bytes: &[u8; 4096], values: &mut [u64; 4]) -> u8;
    fn nyotmelang_log_truncate(log: &mut [u8], len: usize, values: &mut [u64; 4]) -> u8;
    fn nyotmelang_clog_open(clog: &mut [u8], len: usize, values: &mut [u64; 4]) -> u8;
    fn nyotmelang_clog_reset(clog: &mut [u8], len: usize, values: &mut [u64; 4]) -> u8;
    fn nyotmelang_clog_record(clog: &mut [u8], len: usize, id: u64, status: u64, time: u64, values: &mut [u64; 4]) -> u8;
    fn nyotmelang_clog_compact(clog: &mut [u8], len: usize, below: u64, values: &mut [u64; 4]) -> u8;
    fn nyotmelang_clog_load(clog: &mut [u8], len: usize, rows: &mut [[u64; 3]; 256], values: &mut [u64; 4]) -> u8;
    fn nyotmelang_clog_write_pages(clog: &[u8], len: usize, mark: u64, out: &mut [u8], values: &mut [u64; 4]) -> u8;
    fn nyotmelang_clog_read_pages(pages: &[u8], out: &mut [u8], values: &mut [u64; 4]) -> u8;
    fn nyotmelang_clog_to_second(clog: &[u8], len: usize, mark: u64, out: &mut [u8], values: &mut [u64; 4]) -> u8;
    fn nyotmelang_clog_to_first(second: &[u8], len: usize, out: &mut [u8], values: &mut [u64; 4]) -> u8;
    fn nyotmelang_second_record(second: &mut [u8], len: usize, id: u64, status: u64, time: u64, values: &mut [u64; 4]) -> u8;
    fn nyotmelang_second_compact(second: &mut [u8], len: usize, below: u64, values: &mut [u64; 4]) -> u8;
    fn nyotmelang_second_load(second: &mut [u8], len: usize, rows: &mut [[u64; 3]; 256], values: &mut [u64; 4]) -> u8;
    fn nyotmelang_meta_format(db: &[u8], len: usize) -> u8;
    fn nyotmelang_meta_read(db: &[u8], len: usize, values: &mut [u64; 4]) -> u8;
    fn nyotmelang_meta_put(buf: &mut [u8], at: usize, next: u64, time: u64, mark: u64) -> ();
}
