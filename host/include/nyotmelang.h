/* nyotmelang.h: the storage layer as functions for C. host/library builds the archive to link, target/staticlib/libnyotmelang.a, for x86-64.
 *
 * A slice is a pointer and a length, an array of fixed size a pointer. No two buffers of a call may overlap where one of them is written; nothing else is asked of a
 * caller: every function is proved to answer for any bytes, numbers and lengths, to read and write inside what it is lent, and to keep no pointer. A pointer with
 * length 0 is not followed.
 *
 * A function that answers uint8_t gives one of the numbers below. One rule for what it writes:
 *  - a refusal changes no byte of a buffer and no word of a store. One exception: an opening refused with NYOTMELANG_TORN or NYOTMELANG_UNKNOWN_TAG has laid the
 *    images before the bad record into the database, and *told is the database's new length;
 *  - an output that is too short for what it is to get is refused with NYOTMELANG_SLICE_SHORT; nothing is dropped;
 *  - a number that is handed out by a pointer (told, id, page, entries, values) is written in every case, by 0 where there is nothing to tell.
 */
#ifndef NYOTMELANG_H
#define NYOTMELANG_H

#include <stddef.h>
#include <stdint.h>

#ifdef __cplusplus
extern "C" {
#endif

/* ---- answers */

#define NYOTMELANG_ACCEPTED 0
/* A log or database buffer over NYOTMELANG_BUFFER_LIMIT, a clog buffer over NYOTMELANG_CLOG_LIMIT, a frame buffer under one page, a length over its buffer, a
 * reading place past the length, or a clog length under 8 in a clog call other than open and reset. */
#define NYOTMELANG_UNFIT 1
/* A log record's tag is present but its fields are cut short. */
#define NYOTMELANG_TORN 2
/* A record's tag is not 1 to 5. */
#define NYOTMELANG_UNKNOWN_TAG 3
/* The log would outgrow its buffer. */
#define NYOTMELANG_LOG_FULL 4
/* The database would outgrow its buffer. */
#define NYOTMELANG_DATABASE_FULL 5
/* The clog would outgrow its buffer. */
#define NYOTMELANG_CLOG_FULL 6
/* The table would pass 256 entries. */
#define NYOTMELANG_TABLE_FULL 7
/* A frame is needed and all are taken; a page keeps its frame. */
#define NYOTMELANG_FRAMES_FULL 8
/* Install while a transaction is installed. */
#define NYOTMELANG_OCCUPIED 9
/* A page number handed in, in a list too, is NYOTMELANG_NO_PAGE, or a page is allocated when the page count is that. */
#define NYOTMELANG_BAD_PAGE 10
/* A 65th touched page. */
#define NYOTMELANG_TOUCHED_FULL 11
/* Format version neither 0 nor 2. */
#define NYOTMELANG_BAD_VERSION 12
/* An output, for a table, touched pages, status pages or a clog that is moved, is too short. */
#define NYOTMELANG_SLICE_SHORT 13
/* A store or transaction value out of form: table or touched pages not ascending or over their limit, frames repeated or over the limit, a frame or touched page
 * numbered NYOTMELANG_NO_PAGE, log or clog length under 8; or words that no store has: a row with another tag than the three or with a time where it is not
 * committed, a page count over 32 bits, a place that is neither taken nor empty; or a status to record that is none of the three. */
#define NYOTMELANG_OUT_OF_FORM 14
/* Status pages: the clog has an Active slot at or above the mark. */
#define NYOTMELANG_ACTIVE_ABOVE 19
/* Status pages: a 3, which is sub-committed, in the input. */
#define NYOTMELANG_SUB_COMMITTED 20
/* Status pages: the input is not whole pages. */
#define NYOTMELANG_PART_OF_PAGE 21
/* A slot below the base is not 0, where a clog is to be moved to its second form. */
#define NYOTMELANG_SLOT_BELOW_BASE 22
/* A magic, length, version or base that does not fit the form of a clog, or a base over NYOTMELANG_BASE_LIMIT. */
#define NYOTMELANG_BAD_FORM 23
/* Recording an id below the base. */
#define NYOTMELANG_ID_BELOW_BASE 24

/* ---- sizes and limits */

#define NYOTMELANG_PAGE_BYTES 4096
#define NYOTMELANG_BUFFER_LIMIT 16777216
#define NYOTMELANG_CLOG_LIMIT 1048576
#define NYOTMELANG_STATUS_PAGE_BYTES 8192
#define NYOTMELANG_HEADER_BYTES 8
#define NYOTMELANG_SECOND_HEADER_BYTES 13
#define NYOTMELANG_BASE_LIMIT 4194272
#define NYOTMELANG_TABLE_LIMIT 256
#define NYOTMELANG_FRAMES_LIMIT 64
#define NYOTMELANG_TOUCHED_LIMIT 64
/* No page has this number. */
#define NYOTMELANG_NO_PAGE UINT32_C(4294967295)

/* ---- kinds */

/* Of a status, in a row and in nyotmelang_clog_record. */
#define NYOTMELANG_ACTIVE 0
#define NYOTMELANG_COMMITTED 1
#define NYOTMELANG_ABORTED 2

/* Of a log record, as nyotmelang_log_read tells it. */
#define NYOTMELANG_RECORD_END 0
#define NYOTMELANG_RECORD_IMAGE 1
#define NYOTMELANG_RECORD_BEGIN 2
#define NYOTMELANG_RECORD_COMMIT 3
#define NYOTMELANG_RECORD_ABORT 4
#define NYOTMELANG_RECORD_CHECKPOINT 5

/* Of a store of a call, as nyotmelang_pager_X_told tells it. */
#define NYOTMELANG_STORE_NONE 0
#define NYOTMELANG_STORE_APPEND 1
#define NYOTMELANG_STORE_PAGE 2
#define NYOTMELANG_STORE_CLOG 3
#define NYOTMELANG_STORE_TRUNCATION 4

/* ---- the store
 *
 * What a store remembers stands in a struct of the caller, in the open. nyotmelang_pager_open fills it; the caller hands its parts to each call with the same four
 * buffers, by NYOTMELANG_STORE(&store) or one by one. The lengths of the files after an accepted call are the head's first three.
 *
 * Stack, measured on runs of one build and not proved: no nyotmelang_pager_ function used more than 13,784 bytes; nyotmelang_clog_load and nyotmelang_second_load
 * used at most 30,872 each.
 */

typedef struct {
    /* The lengths of the files. */
    uint64_t log_len, db_len, clog_len;
    uint64_t pages;
    uint64_t next_id, next_time, mark;
    /* 1 where a transaction is installed and its id; else 0 and 0. */
    uint64_t held, id;
    /* How many rows, resident and touched pages are held. What stands past a count is neither read nor written. */
    uint64_t entries, resident, touched;
} nyotmelang_head;

/* tag: NYOTMELANG_ACTIVE, _COMMITTED or _ABORTED; the time is 0 where it is not committed. */
typedef struct {
    uint64_t id, tag, time;
} nyotmelang_row;

typedef struct {
    nyotmelang_head head;
    /* Ascending by id. */
    nyotmelang_row rows[NYOTMELANG_TABLE_LIMIT];
    /* The page at place i stands in the frame buffer from byte 4096 i on. */
    uint32_t resident[NYOTMELANG_FRAMES_LIMIT];
    /* Ascending. 64-bit numbers, so that they are not taken for resident pages. */
    uint64_t touched[NYOTMELANG_TOUCHED_LIMIT];
} nyotmelang_store;

#define NYOTMELANG_STORE(s) &(s)->head, (s)->rows, (s)->resident, (s)->touched

/* ---- opening and the calls
 *
 * In all of them: the store's four parts; then the call's own arguments; then log, database, clog and frame buffer, each with its size.
 */

/* Opens the files of these lengths. *told: the database's length where it is accepted or refused with 2 or 3, else 0. */
uint8_t nyotmelang_pager_open(nyotmelang_head *head, nyotmelang_row *rows, uint32_t *resident, uint64_t *touched, size_t log_len, size_t db_len,
                              size_t clog_len, uint8_t *log, size_t log_bytes, uint8_t *db, size_t db_bytes, uint8_t *clog, size_t clog_bytes,
                              const uint8_t *frames, size_t frames_bytes, size_t *told);

uint8_t nyotmelang_pager_begin(nyotmelang_head *head, nyotmelang_row *rows, uint32_t *resident, uint64_t *touched, uint64_t id, uint8_t *log,
                               size_t log_bytes, uint8_t *db, size_t db_bytes, uint8_t *clog, size_t clog_bytes, uint8_t *frames, size_t frames_bytes);
uint8_t nyotmelang_pager_flush(nyotmelang_head *head, nyotmelang_row *rows, uint32_t *resident, uint64_t *touched, uint32_t page, uint8_t *log,
                               size_t log_bytes, uint8_t *db, size_t db_bytes, uint8_t *clog, size_t clog_bytes, uint8_t *frames, size_t frames_bytes);
uint8_t nyotmelang_pager_commit(nyotmelang_head *head, nyotmelang_row *rows, uint32_t *resident, uint64_t *touched, uint8_t *log, size_t log_bytes,
                                uint8_t *db, size_t db_bytes, uint8_t *clog, size_t clog_bytes, uint8_t *frames, size_t frames_bytes);
/* With a list of `pages` catalog pages. */
uint8_t nyotmelang_pager_rollback(nyotmelang_head *head, nyotmelang_row *rows, uint32_t *resident, uint64_t *touched, const uint32_t *list, size_t pages,
                                  uint8_t *log, size_t log_bytes, uint8_t *db, size_t db_bytes, uint8_t *clog, size_t clog_bytes, uint8_t *frames,
                                  size_t frames_bytes);
uint8_t nyotmelang_pager_advance(nyotmelang_head *head, nyotmelang_row *rows, uint32_t *resident, uint64_t *touched, uint64_t mark, uint8_t *log,
                                 size_t log_bytes, uint8_t *db, size_t db_bytes, uint8_t *clog, size_t clog_bytes, uint8_t *frames, size_t frames_bytes);

/* bytes: a page, NYOTMELANG_PAGE_BYTES of them. */
uint8_t nyotmelang_pager_write_page(nyotmelang_head *head, nyotmelang_row *rows, uint32_t *resident, uint64_t *touched, uint32_t page, const uint8_t *bytes,
                                    const uint8_t *log, size_t log_bytes, const uint8_t *db, size_t db_bytes, const uint8_t *clog, size_t clog_bytes,
                                    uint8_t *frames, size_t frames_bytes);
uint8_t nyotmelang_pager_read_page(nyotmelang_head *head, nyotmelang_row *rows, uint32_t *resident, uint64_t *touched, uint32_t page, uint8_t *bytes,
                                   const uint8_t *log, size_t log_bytes, const uint8_t *db, size_t db_bytes, const uint8_t *clog, size_t clog_bytes,
                                   uint8_t *frames, size_t frames_bytes);

/* With a list of `count` touched pages. */
uint8_t nyotmelang_pager_install(nyotmelang_head *head, nyotmelang_row *rows, uint32_t *resident, uint64_t *touched, uint64_t id, const uint32_t *pages,
                                 size_t count, const uint8_t *log, size_t log_bytes, const uint8_t *db, size_t db_bytes, const uint8_t *clog,
                                 size_t clog_bytes, const uint8_t *frames, size_t frames_bytes);
/* The touched pages go over the front of out, which has places for `places` of them. values: 1 where a transaction was installed, its id, how many pages, 0; four 0
 * where none was. */
uint8_t nyotmelang_pager_uninstall(nyotmelang_head *head, nyotmelang_row *rows, uint32_t *resident, uint64_t *touched, uint32_t *out, size_t places,
                                   const uint8_t *log, size_t log_bytes, const uint8_t *db, size_t db_bytes, const uint8_t *clog, size_t clog_bytes,
                                   const uint8_t *frames, size_t frames_bytes, uint64_t *values);
uint8_t nyotmelang_pager_allocate_id(nyotmelang_head *head, nyotmelang_row *rows, uint32_t *resident, uint64_t *touched, const uint8_t *log, size_t log_bytes,
                                     const uint8_t *db, size_t db_bytes, const uint8_t *clog, size_t clog_bytes, const uint8_t *frames, size_t frames_bytes,
                                     uint64_t *id);
uint8_t nyotmelang_pager_allocate_page(nyotmelang_head *head, nyotmelang_row *rows, uint32_t *resident, uint64_t *touched, const uint8_t *log,
                                       size_t log_bytes, const uint8_t *db, size_t db_bytes, const uint8_t *clog, size_t clog_bytes, const uint8_t *frames,
                                       size_t frames_bytes, uint32_t *page);

/* The table, tested as every call tests it: all rows over the front of out, which has places for `places` of them; how many they are; the row at a place, from 0 on:
 * 1, its id, tag and time, or four 0 past the last. */
uint8_t nyotmelang_pager_table(const nyotmelang_head *head, const nyotmelang_row *rows, const uint32_t *resident, const uint64_t *touched,
                               nyotmelang_row *out, size_t places, const uint8_t *log, size_t log_bytes, const uint8_t *db, size_t db_bytes,
                               const uint8_t *clog, size_t clog_bytes, const uint8_t *frames, size_t frames_bytes, size_t *entries);
uint8_t nyotmelang_pager_entry_count(const nyotmelang_head *head, const nyotmelang_row *rows, const uint32_t *resident, const uint64_t *touched,
                                     const uint8_t *log, size_t log_bytes, const uint8_t *db, size_t db_bytes, const uint8_t *clog, size_t clog_bytes,
                                     const uint8_t *frames, size_t frames_bytes, size_t *entries);
uint8_t nyotmelang_pager_entry(const nyotmelang_head *head, const nyotmelang_row *rows, const uint32_t *resident, const uint64_t *touched, size_t i,
                               const uint8_t *log, size_t log_bytes, const uint8_t *db, size_t db_bytes, const uint8_t *clog, size_t clog_bytes,
                               const uint8_t *frames, size_t frames_bytes, uint64_t *values);

/* ---- cuts, counts, tellings of the five calls with stores
 *
 * _to carries the call out to its k-th store, as if power went there; k = 0 is none of them, a k at or past the count all. The store and the frames are left alone;
 * values: the lengths of log, database, clog, then 0.
 * _count changes nothing; values: the number of stores, 0, 0, 0.
 * _told tells store k, from 1 on; values: its kind, offset, length, 0, and four 0 for k = 0 and past the count.
 * A refused call gives its refusal for every k, and its lengths are those that the store has.
 */

uint8_t nyotmelang_pager_begin_to(const nyotmelang_head *head, const nyotmelang_row *rows, const uint32_t *resident, const uint64_t *touched, uint64_t id,
                                  size_t k, uint8_t *log, size_t log_bytes, uint8_t *db, size_t db_bytes, uint8_t *clog, size_t clog_bytes,
                                  const uint8_t *frames, size_t frames_bytes, uint64_t *values);
uint8_t nyotmelang_pager_begin_count(const nyotmelang_head *head, const nyotmelang_row *rows, const uint32_t *resident, const uint64_t *touched, uint64_t id,
                                     const uint8_t *log, size_t log_bytes, const uint8_t *db, size_t db_bytes, const uint8_t *clog, size_t clog_bytes,
                                     const uint8_t *frames, size_t frames_bytes, uint64_t *values);
uint8_t nyotmelang_pager_begin_told(const nyotmelang_head *head, const nyotmelang_row *rows, const uint32_t *resident, const uint64_t *touched, uint64_t id,
                                    size_t k, const uint8_t *log, size_t log_bytes, const uint8_t *db, size_t db_bytes, const uint8_t *clog,
                                    size_t clog_bytes, const uint8_t *frames, size_t frames_bytes, uint64_t *values);

uint8_t nyotmelang_pager_flush_to(const nyotmelang_head *head, const nyotmelang_row *rows, const uint32_t *resident, const uint64_t *touched, uint32_t page,
                                  size_t k, uint8_t *log, size_t log_bytes, uint8_t *db, size_t db_bytes, uint8_t *clog, size_t clog_bytes,
                                  const uint8_t *frames, size_t frames_bytes, uint64_t *values);
uint8_t nyotmelang_pager_flush_count(const nyotmelang_head *head, const nyotmelang_row *rows, const uint32_t *resident, const uint64_t *touched,
                                     uint32_t page, const uint8_t *log, size_t log_bytes, const uint8_t *db, size_t db_bytes, const uint8_t *clog,
                                     size_t clog_bytes, const uint8_t *frames, size_t frames_bytes, uint64_t *values);
uint8_t nyotmelang_pager_flush_told(const nyotmelang_head *head, const nyotmelang_row *rows, const uint32_t *resident, const uint64_t *touched, uint32_t page,
                                    size_t k, const uint8_t *log, size_t log_bytes, const uint8_t *db, size_t db_bytes, const uint8_t *clog,
                                    size_t clog_bytes, const uint8_t *frames, size_t frames_bytes, uint64_t *values);

uint8_t nyotmelang_pager_commit_to(const nyotmelang_head *head, const nyotmelang_row *rows, const uint32_t *resident, const uint64_t *touched, size_t k,
                                   uint8_t *log, size_t log_bytes, uint8_t *db, size_t db_bytes, uint8_t *clog, size_t clog_bytes, const uint8_t *frames,
                                   size_t frames_bytes, uint64_t *values);
uint8_t nyotmelang_pager_commit_count(const nyotmelang_head *head, const nyotmelang_row *rows, const uint32_t *resident, const uint64_t *touched,
                                      const uint8_t *log, size_t log_bytes, const uint8_t *db, size_t db_bytes, const uint8_t *clog, size_t clog_bytes,
                                      const uint8_t *frames, size_t frames_bytes, uint64_t *values);
uint8_t nyotmelang_pager_commit_told(const nyotmelang_head *head, const nyotmelang_row *rows, const uint32_t *resident, const uint64_t *touched, size_t k,
                                     const uint8_t *log, size_t log_bytes, const uint8_t *db, size_t db_bytes, const uint8_t *clog, size_t clog_bytes,
                                     const uint8_t *frames, size_t frames_bytes, uint64_t *values);

uint8_t nyotmelang_pager_rollback_to(const nyotmelang_head *head, const nyotmelang_row *rows, const uint32_t *resident, const uint64_t *touched,
                                     const uint32_t *list, size_t pages, size_t k, uint8_t *log, size_t log_bytes, uint8_t *db, size_t db_bytes,
                                     uint8_t *clog, size_t clog_bytes, const uint8_t *frames, size_t frames_bytes, uint64_t *values);
uint8_t nyotmelang_pager_rollback_count(const nyotmelang_head *head, const nyotmelang_row *rows, const uint32_t *resident, const uint64_t *touched,
                                        const uint32_t *list, size_t pages, const uint8_t *log, size_t log_bytes, const uint8_t *db, size_t db_bytes,
                                        const uint8_t *clog, size_t clog_bytes, const uint8_t *frames, size_t frames_bytes, uint64_t *values);
uint8_t nyotmelang_pager_rollback_told(const nyotmelang_head *head, const nyotmelang_row *rows, const uint32_t *resident, const uint64_t *touched,
                                       const uint32_t *list, size_t pages, size_t k, const uint8_t *log, size_t log_bytes, const uint8_t *db, size_t db_bytes,
                                       const uint8_t *clog, size_t clog_bytes, const uint8_t *frames, size_t frames_bytes, uint64_t *values);

uint8_t nyotmelang_pager_advance_to(const nyotmelang_head *head, const nyotmelang_row *rows, const uint32_t *resident, const uint64_t *touched, uint64_t mark,
                                    size_t k, uint8_t *log, size_t log_bytes, uint8_t *db, size_t db_bytes, uint8_t *clog, size_t clog_bytes,
                                    const uint8_t *frames, size_t frames_bytes, uint64_t *values);
uint8_t nyotmelang_pager_advance_count(const nyotmelang_head *head, const nyotmelang_row *rows, const uint32_t *resident, const uint64_t *touched,
                                       uint64_t mark, const uint8_t *log, size_t log_bytes, const uint8_t *db, size_t db_bytes, const uint8_t *clog,
                                       size_t clog_bytes, const uint8_t *frames, size_t frames_bytes, uint64_t *values);
uint8_t nyotmelang_pager_advance_told(const nyotmelang_head *head, const nyotmelang_row *rows, const uint32_t *resident, const uint64_t *touched,
                                      uint64_t mark, size_t k, const uint8_t *log, size_t log_bytes, const uint8_t *db, size_t db_bytes, const uint8_t *clog,
                                      size_t clog_bytes, const uint8_t *frames, size_t frames_bytes, uint64_t *values);

/* ---- the log by itself: a buffer of log_bytes bytes, of which the first len are the log */

/* The place of the first record: after the magic, or the log's end where it does not begin with it. */
size_t nyotmelang_log_start(const uint8_t *log, size_t log_bytes, size_t len);
/* The record at a place. values: its kind; then of an image page number, place of its bytes in the log, place after it; of a begin or an abort id, place after
 * it; of a commit id, time, place after it; of a checkpoint the place after it. Four 0 at the end of the log. NYOTMELANG_TORN: values[0] bytes are missing. */
uint8_t nyotmelang_log_read(const uint8_t *log, size_t log_bytes, size_t len, size_t at, uint64_t *values);
/* values[0]: the new length, where it is accepted. */
uint8_t nyotmelang_log_append_begin(uint8_t *log, size_t log_bytes, size_t len, uint64_t id, uint64_t *values);
uint8_t nyotmelang_log_append_abort(uint8_t *log, size_t log_bytes, size_t len, uint64_t id, uint64_t *values);
uint8_t nyotmelang_log_append_commit(uint8_t *log, size_t log_bytes, size_t len, uint64_t id, uint64_t time, uint64_t *values);
uint8_t nyotmelang_log_append_checkpoint(uint8_t *log, size_t log_bytes, size_t len, uint64_t *values);
uint8_t nyotmelang_log_append_page(uint8_t *log, size_t log_bytes, size_t len, uint32_t page, const uint8_t *bytes, uint64_t *values);
uint8_t nyotmelang_log_truncate(uint8_t *log, size_t log_bytes, size_t len, uint64_t *values);

/* ---- the clog by itself. values[0]: the new length, where it is accepted */

uint8_t nyotmelang_clog_open(uint8_t *clog, size_t clog_bytes, size_t len, uint64_t *values);
uint8_t nyotmelang_clog_reset(uint8_t *clog, size_t clog_bytes, size_t len, uint64_t *values);
/* A status that is none of the three is refused with NYOTMELANG_OUT_OF_FORM, after NYOTMELANG_UNFIT. The clog keeps no time. */
uint8_t nyotmelang_clog_record(uint8_t *clog, size_t clog_bytes, size_t len, uint64_t id, uint64_t status, uint64_t time, uint64_t *values);
uint8_t nyotmelang_clog_compact(uint8_t *clog, size_t clog_bytes, size_t len, uint64_t below, uint64_t *values);
/* The entries go over the front of rows, which has NYOTMELANG_TABLE_LIMIT places. values[1]: how many there are. */
uint8_t nyotmelang_clog_load(uint8_t *clog, size_t clog_bytes, size_t len, nyotmelang_row *rows, uint64_t *values);

/* ---- status pages, as PostgreSQL keeps them in its folder pg_xact: NYOTMELANG_STATUS_PAGE_BYTES each, two bits for each id as in the clog's body, 0 in
 * progress, 1 committed, 2 aborted, 3 sub-committed. What is put out goes over the front of out. values[0]: how many bytes, where it is accepted.
 * NYOTMELANG_SLICE_SHORT comes last */

/* The clog's ids below the mark go out as committed, absent ones at or above it as 0; the last page is filled with 0, and a clog of no ids writes no page.
 * NYOTMELANG_UNFIT, NYOTMELANG_ACTIVE_ABOVE. */
uint8_t nyotmelang_clog_write_pages(const uint8_t *clog, size_t clog_bytes, size_t len, uint64_t mark, uint8_t *out, size_t out_bytes, uint64_t *values);
/* A body of as many bytes as the pages, without a clog's magic. NYOTMELANG_PART_OF_PAGE, NYOTMELANG_SUB_COMMITTED. */
uint8_t nyotmelang_clog_read_pages(const uint8_t *pages, size_t pages_bytes, uint8_t *out, size_t out_bytes, uint64_t *values);

/* ---- the second form of a clog: how many bytes follow, 4 bytes big-endian; 2; the base id, 8 bytes big-endian; the slots from the base on. values[0]: the length
 * of what was written or is left, where it is accepted.
 *
 * A store opens the old form only. nyotmelang_pager_open, given the second form as its clog, finds another magic, RESETS it and answers NYOTMELANG_ACCEPTED: the statuses are
 * gone. Move a clog back before a store is opened, and never keep a moved one where a store's clog is looked for. */

/* A clog is moved under a mark. The base is the mark rounded down to a multiple of 4, or four times the body's length if that is smaller. */
uint8_t nyotmelang_clog_to_second(const uint8_t *clog, size_t clog_bytes, size_t len, uint64_t mark, uint8_t *out, size_t out_bytes, uint64_t *values);
/* And back. */
uint8_t nyotmelang_clog_to_first(const uint8_t *second, size_t second_bytes, size_t len, uint8_t *out, size_t out_bytes, uint64_t *values);
/* The same calls as on a clog. The stated length follows a record that lengthens the file; a compaction keeps the base. */
uint8_t nyotmelang_second_record(uint8_t *second, size_t second_bytes, size_t len, uint64_t id, uint64_t status, uint64_t time, uint64_t *values);
uint8_t nyotmelang_second_compact(uint8_t *second, size_t second_bytes, size_t len, uint64_t below, uint64_t *values);
uint8_t nyotmelang_second_load(uint8_t *second, size_t second_bytes, size_t len, nyotmelang_row *rows, uint64_t *values);

/* ---- page 0 by itself */

/* NYOTMELANG_ACCEPTED, NYOTMELANG_BAD_VERSION or NYOTMELANG_UNFIT. */
uint8_t nyotmelang_meta_format(const uint8_t *db, size_t db_bytes, size_t len);
/* values: next id, next commit time, frozen mark, 1; four 0 where no meta page stands. */
uint8_t nyotmelang_meta_read(const uint8_t *db, size_t db_bytes, size_t len, uint64_t *values);
/* A meta page of version 2 is written from a place on; what does not fit is dropped. */
void nyotmelang_meta_put(uint8_t *buf, size_t buf_bytes, size_t at, uint64_t next, uint64_t time, uint64_t mark);

#ifdef __cplusplus
}
#endif

#endif
