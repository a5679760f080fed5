/* try: uses every group of functions of nyotmelang.h once, on files in memory, and checks what it sees. It ends with status 1 and a line on the first wrong
 * value, and otherwise with one line. Build: cc -std=c99 -Wall -Wextra -Werror -pedantic -Ihost/include host/try.c target/staticlib/libnyotmelang.a */
#include "nyotmelang.h"

#include <stdio.h>
#include <stdlib.h>
#include <string.h>

#define CHECK(what, seen, wanted) check(__LINE__, what, (uint64_t)(seen), (uint64_t)(wanted))

/* The four buffers, behind the store, as every call takes them; and as the calls take them that leave the files alone. */
#define FILES log_, sizeof log_, db_, sizeof db_, clog_, sizeof clog_, frames_, sizeof frames_
#define CUT_FILES cut_log, sizeof cut_log, cut_db, sizeof cut_db, cut_clog, sizeof cut_clog, frames_, sizeof frames_
#define STORE NYOTMELANG_STORE(&store_)

static nyotmelang_store store_;
static uint8_t log_[32768], db_[65536], clog_[64], frames_[4 * NYOTMELANG_PAGE_BYTES];
static uint8_t cut_log[sizeof log_], cut_db[sizeof db_], cut_clog[sizeof clog_];
static uint8_t page[NYOTMELANG_PAGE_BYTES], out[NYOTMELANG_PAGE_BYTES];
static unsigned checks = 0;

static void check(int line, const char *what, uint64_t seen, uint64_t wanted)
{
    checks++;
    if (seen != wanted) {
        printf("try: line %d: %s is %llu and not %llu\n", line, what, (unsigned long long)seen, (unsigned long long)wanted);
        exit(1);
    }
}

/* A number of so many bytes, little-endian. */
static uint64_t number_at(const uint8_t *bytes, size_t at, size_t width)
{
    uint64_t value = 0;
    while (width-- > 0)
        value = value << 8 | bytes[at + width];
    return value;
}

static void open_store(size_t log_len, size_t db_len, size_t clog_len)
{
    size_t told = 99;
    CHECK("opening", nyotmelang_pager_open(STORE, log_len, db_len, clog_len, FILES, &told), NYOTMELANG_ACCEPTED);
    CHECK("database length told", told, db_len);
    CHECK("log length", store_.head.log_len, NYOTMELANG_HEADER_BYTES);
}

/* A transaction that touches page 3; then its commit is counted, told and cut. */
static void begin_and_write(void)
{
    uint64_t id = 0, values[4];
    uint32_t fresh = 99;
    CHECK("allocating an id", nyotmelang_pager_allocate_id(STORE, FILES, &id), NYOTMELANG_ACCEPTED);
    CHECK("the id", id, 1);
    CHECK("allocating a page", nyotmelang_pager_allocate_page(STORE, FILES, &fresh), NYOTMELANG_ACCEPTED);
    CHECK("the page", fresh, 0);
    CHECK("stores of a begin", nyotmelang_pager_begin_count(STORE, id, FILES, values), NYOTMELANG_ACCEPTED);
    CHECK("their number", values[0], 2);
    CHECK("begin", nyotmelang_pager_begin(STORE, id, FILES), NYOTMELANG_ACCEPTED);
    memset(page, 7, sizeof page);
    CHECK("write", nyotmelang_pager_write_page(STORE, 3, page, FILES), NYOTMELANG_ACCEPTED);
    CHECK("page count", store_.head.pages, 4);
    CHECK("flush", nyotmelang_pager_flush(STORE, 3, FILES), NYOTMELANG_ACCEPTED);
    CHECK("touched pages", store_.head.touched, 1);
}

static void uninstall_and_install(void)
{
    uint32_t pages[2] = { 7, 7 };
    const uint32_t falling[2] = { 5, 3 };
    uint64_t values[4];
    CHECK("uninstall, half a frame", nyotmelang_pager_uninstall(STORE, pages, 2, log_, sizeof log_, db_, sizeof db_, clog_, sizeof clog_, frames_, 2048, values), NYOTMELANG_UNFIT);
    CHECK("uninstall, no place", nyotmelang_pager_uninstall(STORE, pages, 0, FILES, values), NYOTMELANG_SLICE_SHORT);
    CHECK("what a refusal left", pages[0], 7);
    CHECK("what a refusal told", values[0] + values[1] + values[2] + values[3], 0);
    CHECK("uninstall", nyotmelang_pager_uninstall(STORE, pages, 2, FILES, values), NYOTMELANG_ACCEPTED);
    CHECK("a transaction", values[0], 1);
    CHECK("its id", values[1], 1);
    CHECK("how many pages", values[2], 1);
    CHECK("its page", pages[0], 3);
    CHECK("the place after it", pages[1], 7);
    CHECK("install, pages that fall", nyotmelang_pager_install(STORE, 1, falling, 2, FILES), NYOTMELANG_OUT_OF_FORM);
    CHECK("install", nyotmelang_pager_install(STORE, 1, pages, 1, FILES), NYOTMELANG_ACCEPTED);
    CHECK("install again", nyotmelang_pager_install(STORE, 1, pages, 1, FILES), NYOTMELANG_OCCUPIED);
}

/* Words that no store has: unfit buffers are told first. */
static void out_of_form(void)
{
    nyotmelang_store odd = store_;
    odd.rows[0].tag = 3;
    CHECK("a tag that is none", nyotmelang_pager_commit(NYOTMELANG_STORE(&odd), FILES), NYOTMELANG_OUT_OF_FORM);
    CHECK("and no frame", nyotmelang_pager_commit(NYOTMELANG_STORE(&odd), log_, sizeof log_, db_, sizeof db_, clog_, sizeof clog_, frames_, 0), NYOTMELANG_UNFIT);
    odd = store_;
    odd.head.held = 2;
    CHECK("a place that is neither", nyotmelang_pager_commit(NYOTMELANG_STORE(&odd), FILES), NYOTMELANG_OUT_OF_FORM);
    odd = store_;
    odd.head.pages = UINT64_C(4294967296);
    CHECK("a page count over 32 bits", nyotmelang_pager_commit(NYOTMELANG_STORE(&odd), FILES), NYOTMELANG_OUT_OF_FORM);
}

static void cut_commit(void)
{
    static const uint64_t told[7][3] = {
        { NYOTMELANG_STORE_APPEND, 17, 4101 }, { NYOTMELANG_STORE_APPEND, 4118, 17 },  { NYOTMELANG_STORE_PAGE, 12288, 4096 },
        { NYOTMELANG_STORE_CLOG, 8, 1 },       { NYOTMELANG_STORE_APPEND, 4135, 1 },   { NYOTMELANG_STORE_TRUNCATION, 0, 8 },
        { NYOTMELANG_STORE_PAGE, 0, 4096 },
    };
    uint64_t values[4];
    size_t k, i;
    CHECK("stores of a commit", nyotmelang_pager_commit_count(STORE, FILES, values), NYOTMELANG_ACCEPTED);
    CHECK("their number", values[0], 7);
    for (k = 1; k <= 7; k++) {
        CHECK("telling", nyotmelang_pager_commit_told(STORE, k, FILES, values), NYOTMELANG_ACCEPTED);
        for (i = 0; i < 3; i++)
            CHECK("what is told", values[i], told[k - 1][i]);
    }
    CHECK("telling past the last", nyotmelang_pager_commit_told(STORE, 8, FILES, values), NYOTMELANG_ACCEPTED);
    CHECK("nothing told", values[0], NYOTMELANG_STORE_NONE);
    memcpy(cut_log, log_, sizeof log_);
    memcpy(cut_db, db_, sizeof db_);
    memcpy(cut_clog, clog_, sizeof clog_);
    CHECK("cut at 2", nyotmelang_pager_commit_to(STORE, 2, CUT_FILES, values), NYOTMELANG_ACCEPTED);
    CHECK("log length of the cut", values[0], 4135);
    CHECK("database length of the cut", values[1], 0);
    CHECK("clog length of the cut", values[2], 9);
}

/* The cut's log, record by record: begin, image, commit. */
static void read_cut_log(void)
{
    uint64_t values[4];
    size_t at = nyotmelang_log_start(cut_log, sizeof cut_log, 4135);
    CHECK("start", at, 8);
    CHECK("first record", nyotmelang_log_read(cut_log, sizeof cut_log, 4135, at, values), NYOTMELANG_ACCEPTED);
    CHECK("its kind", values[0], NYOTMELANG_RECORD_BEGIN);
    CHECK("its id", values[1], 1);
    CHECK("second record", nyotmelang_log_read(cut_log, sizeof cut_log, 4135, (size_t)values[2], values), NYOTMELANG_ACCEPTED);
    CHECK("its kind", values[0], NYOTMELANG_RECORD_IMAGE);
    CHECK("its page", values[1], 3);
    CHECK("its bytes", memcmp(cut_log + values[2], page, sizeof page), 0);
    CHECK("third record", nyotmelang_log_read(cut_log, sizeof cut_log, 4135, (size_t)values[3], values), NYOTMELANG_ACCEPTED);
    CHECK("its kind", values[0], NYOTMELANG_RECORD_COMMIT);
    CHECK("its time", values[2], 1);
    CHECK("the end", nyotmelang_log_read(cut_log, sizeof cut_log, 4135, (size_t)values[3], values), NYOTMELANG_ACCEPTED);
    CHECK("its kind", values[0], NYOTMELANG_RECORD_END);
    CHECK("a torn record", nyotmelang_log_read(cut_log, sizeof cut_log, 4134, 4118, values), NYOTMELANG_TORN);
    CHECK("missing bytes", values[0], 1);
}

static void commit_and_read_back(void)
{
    nyotmelang_row row;
    uint64_t values[4];
    size_t entries = 99, told = 99;
    nyotmelang_head before;
    CHECK("commit", nyotmelang_pager_commit(STORE, FILES), NYOTMELANG_ACCEPTED);
    CHECK("commit with no transaction", nyotmelang_pager_commit(STORE, FILES), NYOTMELANG_ACCEPTED);
    CHECK("flush of no page", nyotmelang_pager_flush(STORE, NYOTMELANG_NO_PAGE, FILES), NYOTMELANG_BAD_PAGE);
    open_store(store_.head.log_len, store_.head.db_len, store_.head.clog_len);
    CHECK("read", nyotmelang_pager_read_page(STORE, 3, out, FILES), NYOTMELANG_ACCEPTED);
    CHECK("the page read", memcmp(out, page, sizeof page), 0);
    CHECK("entries", nyotmelang_pager_entry_count(STORE, FILES, &entries), NYOTMELANG_ACCEPTED);
    CHECK("their number", entries, 1);
    CHECK("an entry", nyotmelang_pager_entry(STORE, 0, FILES, values), NYOTMELANG_ACCEPTED);
    CHECK("it is there", values[0], 1);
    CHECK("its status", values[2], NYOTMELANG_COMMITTED);
    CHECK("past the last", nyotmelang_pager_entry(STORE, 1, FILES, values), NYOTMELANG_ACCEPTED);
    CHECK("none", values[0], 0);
    CHECK("table with no place", nyotmelang_pager_table(STORE, &row, 0, FILES, &entries), NYOTMELANG_SLICE_SHORT);
    CHECK("table", nyotmelang_pager_table(STORE, &row, 1, FILES, &entries), NYOTMELANG_ACCEPTED);
    CHECK("its id", row.id, 1);
    before = store_.head;
    CHECK("an opening with no frame", nyotmelang_pager_open(STORE, 0, 0, 0, log_, sizeof log_, db_, sizeof db_, clog_, sizeof clog_, frames_, 0, &told), NYOTMELANG_UNFIT);
    CHECK("the store that it left", memcmp(&before, &store_.head, sizeof before), 0);
    CHECK("what it told", told, 0);
}

static void roll_back_and_advance(void)
{
    const uint32_t catalog[1] = { 3 };
    uint64_t values[4];
    CHECK("begin", nyotmelang_pager_begin(STORE, 2, FILES), NYOTMELANG_ACCEPTED);
    memset(page, 9, sizeof page);
    CHECK("write", nyotmelang_pager_write_page(STORE, 3, page, FILES), NYOTMELANG_ACCEPTED);
    CHECK("flush", nyotmelang_pager_flush(STORE, 3, FILES), NYOTMELANG_ACCEPTED);
    CHECK("stores of a rollback", nyotmelang_pager_rollback_count(STORE, catalog, 1, FILES, values), NYOTMELANG_ACCEPTED);
    CHECK("their number", values[0], 3);
    CHECK("rollback", nyotmelang_pager_rollback(STORE, catalog, 1, FILES), NYOTMELANG_ACCEPTED);
    CHECK("read", nyotmelang_pager_read_page(STORE, 3, out, FILES), NYOTMELANG_ACCEPTED);
    CHECK("the file's byte", out[0], 7);
    CHECK("a store of an advance", nyotmelang_pager_advance_told(STORE, 2, 1, FILES, values), NYOTMELANG_ACCEPTED);
    CHECK("its kind", values[0], NYOTMELANG_STORE_CLOG);
    CHECK("advance", nyotmelang_pager_advance(STORE, 2, FILES), NYOTMELANG_ACCEPTED);
    CHECK("the mark", store_.head.mark, 2);
}

/* The clog of ids 2, Aborted, and 5, Committed, as status pages under mark 2, and read back. */
static void status_pages(size_t len)
{
    static uint8_t pages[NYOTMELANG_STATUS_PAGE_BYTES], body[NYOTMELANG_STATUS_PAGE_BYTES];
    uint64_t values[4];
    CHECK("pages", nyotmelang_clog_write_pages(clog_, sizeof clog_, len, 2, pages, sizeof pages, values), NYOTMELANG_ACCEPTED);
    CHECK("their length", values[0], sizeof pages);
    CHECK("ids 0 to 3", pages[0], 0x25);
    CHECK("id 5", pages[1], 0x04);
    CHECK("pages too long", nyotmelang_clog_write_pages(clog_, sizeof clog_, len, 2, body, sizeof body - 1, values), NYOTMELANG_SLICE_SHORT);
    CHECK("pages read", nyotmelang_clog_read_pages(pages, sizeof pages, body, sizeof body, values), NYOTMELANG_ACCEPTED);
    CHECK("id 5 again", body[1], clog_[9]);
    CHECK("part of a page", nyotmelang_clog_read_pages(pages, sizeof pages - 1, body, sizeof body, values), NYOTMELANG_PART_OF_PAGE);
    pages[100] = 3;
    CHECK("sub-committed", nyotmelang_clog_read_pages(pages, sizeof pages, body, sizeof body, values), NYOTMELANG_SUB_COMMITTED);
}

/* The files by themselves: the log appended to and truncated, the clog recorded, loaded and written out as status pages, page 0 read and written. */
static void leaves(void)
{
    static nyotmelang_row rows[NYOTMELANG_TABLE_LIMIT];
    uint64_t values[4];
    size_t len = store_.head.clog_len;
    CHECK("format", nyotmelang_meta_format(db_, sizeof db_, store_.head.db_len), NYOTMELANG_ACCEPTED);
    CHECK("page 0", nyotmelang_meta_read(db_, sizeof db_, store_.head.db_len, values), NYOTMELANG_ACCEPTED);
    CHECK("next id", values[0], 2);
    CHECK("next commit time", values[1], 2);
    CHECK("mark", values[2], 2);
    nyotmelang_meta_put(page, sizeof page, 0, 8, 9, 10);
    CHECK("page 0", nyotmelang_meta_read(page, sizeof page, sizeof page, values), NYOTMELANG_ACCEPTED);
    CHECK("mark", values[2], 10);
    CHECK("a meta page", values[3], 1);
    CHECK("no page 0", nyotmelang_meta_read(page, sizeof page, 0, values), NYOTMELANG_ACCEPTED);
    CHECK("no meta page", values[3], 0);
    CHECK("a status that is none", nyotmelang_clog_record(clog_, sizeof clog_, len, 5, 3, 0, values), NYOTMELANG_OUT_OF_FORM);
    CHECK("and a length over the buffer", nyotmelang_clog_record(clog_, sizeof clog_, 65, 5, 3, 0, values), NYOTMELANG_UNFIT);
    CHECK("record", nyotmelang_clog_record(clog_, sizeof clog_, len, 5, NYOTMELANG_COMMITTED, 4, values), NYOTMELANG_ACCEPTED);
    CHECK("clog length", values[0], 10);
    CHECK("load", nyotmelang_clog_load(clog_, sizeof clog_, (size_t)values[0], rows, values), NYOTMELANG_ACCEPTED);
    CHECK("entries", values[1], 2);
    CHECK("first status", rows[0].tag, NYOTMELANG_ABORTED);
    CHECK("second id", rows[1].id, 5);
    status_pages(10);
    CHECK("truncate", nyotmelang_log_truncate(log_, sizeof log_, 0, values), NYOTMELANG_ACCEPTED);
    CHECK("append", nyotmelang_log_append_checkpoint(log_, sizeof log_, (size_t)values[0], values), NYOTMELANG_ACCEPTED);
    CHECK("log length", values[0], 9);
    CHECK("append past the buffer", nyotmelang_log_append_begin(log_, 16, 9, 1, values), NYOTMELANG_LOG_FULL);
}

/* A clog moved to its second form, worked in there, and moved back. Under the mark 9 the base is 8; 9 is Committed, 10 Aborted. */
static void second_form(void)
{
    static const uint8_t old[11] = { 'A', 'E', 'R', 'O', 'C', 'L', 'G', '1', 0, 0, 0x38 };
    static nyotmelang_row rows[NYOTMELANG_TABLE_LIMIT];
    uint8_t second[15], back[16];
    uint64_t values[4];
    memset(second, 7, sizeof second);
    CHECK("a slot below the base", nyotmelang_clog_to_second(old, sizeof old, sizeof old, 12, second, sizeof second, values), NYOTMELANG_SLOT_BELOW_BASE);
    CHECK("an output too short", nyotmelang_clog_to_second(old, sizeof old, sizeof old, 9, second, 13, values), NYOTMELANG_SLICE_SHORT);
    CHECK("what a refusal left", number_at(second, 0, 4), 0x07070707);
    CHECK("to the second form", nyotmelang_clog_to_second(old, sizeof old, sizeof old, 9, second, sizeof second, values), NYOTMELANG_ACCEPTED);
    CHECK("its length", values[0], 14);
    CHECK("the length that it states", second[3], 10);
    CHECK("its base", second[12], 8);
    CHECK("the byte after it", second[14], 7);
    CHECK("recording below the base", nyotmelang_second_record(second, sizeof second, 14, 7, NYOTMELANG_ABORTED, 0, values), NYOTMELANG_ID_BELOW_BASE);
    CHECK("recording", nyotmelang_second_record(second, sizeof second, 14, 12, NYOTMELANG_ACTIVE, 0, values), NYOTMELANG_ACCEPTED);
    CHECK("its length", values[0], 15);
    CHECK("the length that it states", second[3], 11);
    CHECK("load", nyotmelang_second_load(second, sizeof second, 15, rows, values), NYOTMELANG_ACCEPTED);
    CHECK("entries", values[1], 3);
    CHECK("first id", rows[0].id, 9);
    CHECK("last status", rows[2].tag, NYOTMELANG_ABORTED);
    CHECK("compact", nyotmelang_second_compact(second, sizeof second, 15, 10, values), NYOTMELANG_ACCEPTED);
    CHECK("its base", second[12], 8);
    CHECK("to the old form", nyotmelang_clog_to_first(second, sizeof second, 15, back, sizeof back, values), NYOTMELANG_ACCEPTED);
    CHECK("its length", values[0], 12);
    CHECK("its header", memcmp(back, old, 10), 0);
    CHECK("its slots", number_at(back, 10, 2), 0x0330);
    second[4] = 3;
    CHECK("another version", nyotmelang_clog_to_first(second, sizeof second, 15, back, sizeof back, values), NYOTMELANG_BAD_FORM);
}

int main(void)
{
    open_store(0, 0, 0);
    begin_and_write();
    uninstall_and_install();
    out_of_form();
    cut_commit();
    read_cut_log();
    commit_and_read_back();
    roll_back_and_advance();
    leaves();
    second_form();
    printf("try: %u values as they should be\n", checks);
    return 0;
}
