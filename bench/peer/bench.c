/* The same work through the pool and through SQLite's public interface, with 128 pages of 8,192 bytes in memory: pick a page, read 64 of
   its bytes, write 64 others. The pool: pin, read, log inserted, write, unpin. SQLite: a table in memory with one row of 8,000 bytes to a
   page, one transaction open, no journal, no locks; by an incremental blob (reopened on the row, read, written), and by two prepared
   statements (the row's value is selected, and stored with 64 bytes changed). Each takes the same pages in the same order. There is no
   bound. */
#include "calls/cases.h"
#include "timing.h"
#include <sqlite3.h>
#include <string.h>

enum { PAGES = 128, ROW = 8000, SPAN = 64, ROUNDS = 401, TIMES = 256 };

static struct pool pool;
static const struct bufpool_holder holder = {0};
static sqlite3 *base;
static sqlite3_blob *blob;
static sqlite3_stmt *get, *put;
static uint8_t bytes[ROW];

/* The kth page, all of them in a mixed order, and where in it to read; the 64 bytes behind are written to. */
static uint32_t page_of(size_t k)
{
    return (uint32_t)(k * 53 % PAGES);
}

static uint32_t from_of(size_t k)
{
    return (uint32_t)(SPAN + k % 32 * 2 * SPAN);
}

/* 0 if every call of a piece of work is accepted */
typedef int work_fn(size_t k);

static int by_pool(size_t k)
{
    struct bufpool *m = &pool.lent;
    const uint32_t *name = m->names + BUFPOOL_NAME_WORDS * page_of(k);
    struct bufpool_name page = {{FILE_OF(name)}, name[BUFPOOL_NAME_AT_BLOCK]};
    struct bufpool_pinned pinned;
    uint64_t position = bufpool_inserted(m) + 1;
    uint32_t wrong = bufpool_pin_page(m, holder, page, &pinned);
    wrong |= bufpool_read_buffer(m, holder, pinned.buffer, from_of(k), bytes, SPAN);
    wrong |= bufpool_log_inserted_to(m, position);
    wrong |= bufpool_write_buffer(m, holder, pinned.buffer, from_of(k) + SPAN, bytes, SPAN, position);
    return (int)(wrong | bufpool_unpin_buffer(m, holder, pinned.buffer));
}

static int by_blob(size_t k)
{
    int wrong = sqlite3_blob_reopen(blob, 1 + page_of(k));
    wrong |= sqlite3_blob_read(blob, bytes, SPAN, (int)from_of(k));
    return wrong | sqlite3_blob_write(blob, bytes, SPAN, (int)from_of(k) + SPAN);
}

/* A statement stores a whole value; one put together by substr in SQL took twice the time. */
static int by_statement(size_t k)
{
    int row = 1 + (int)page_of(k), wrong = sqlite3_bind_int(get, 1, row);
    wrong |= sqlite3_step(get) != SQLITE_ROW || sqlite3_column_bytes(get, 0) != ROW;
    if (!wrong) memcpy(bytes, sqlite3_column_blob(get, 0), ROW);
    wrong |= sqlite3_reset(get);
    memcpy(bytes + from_of(k) + SPAN, bytes + from_of(k), SPAN);
    wrong |= sqlite3_bind_int(put, 1, row) | sqlite3_bind_blob(put, 2, bytes, ROW, SQLITE_STATIC);
    wrong |= sqlite3_step(put) != SQLITE_DONE;
    return wrong | sqlite3_reset(put);
}

static void need(int good, const char *what)
{
    if (good) return;
    fprintf(stderr, "%s: %s\n", what, base == NULL ? "refused" : sqlite3_errmsg(base));
    exit(2);
}

static sqlite3_stmt *prepare(const char *words)
{
    sqlite3_stmt *statement = NULL;
    need(sqlite3_prepare_v3(base, words, -1, SQLITE_PREPARE_PERSISTENT, &statement, NULL) == SQLITE_OK, words);
    return statement;
}

/* Beside the rows' pages there are the table's root and the schema. */
static void open_base(void)
{
    const char *fill = "PRAGMA page_size = 8192; PRAGMA journal_mode = OFF; CREATE TABLE pages (id INTEGER PRIMARY KEY, body BLOB);"
                       "WITH RECURSIVE ids(id) AS (SELECT 1 UNION ALL SELECT id + 1 FROM ids WHERE id < 128)"
                       "INSERT INTO pages SELECT id, zeroblob(8000) FROM ids; BEGIN";
    need(sqlite3_config(SQLITE_CONFIG_SINGLETHREAD) == SQLITE_OK && sqlite3_open(":memory:", &base) == SQLITE_OK, "open");
    need(sqlite3_exec(base, fill, NULL, NULL, NULL) == SQLITE_OK, "fill");
    sqlite3_stmt *count = prepare("PRAGMA page_count");
    need(sqlite3_step(count) == SQLITE_ROW && sqlite3_column_int(count, 0) == PAGES + 2, "one row to a page");
    sqlite3_finalize(count);
    get = prepare("SELECT body FROM pages WHERE id = ?1");
    put = prepare("UPDATE pages SET body = ?2 WHERE id = ?1");
    need(sqlite3_blob_open(base, "main", "pages", "body", 1, 1, &blob) == SQLITE_OK, "blob");
}

/* nanoseconds for one piece of work */
static double time_of(work_fn *work)
{
    int wrong = 0;
    double began = now();
    for (size_t k = 0; k < TIMES; k++) wrong |= work(k);
    need(!wrong, "work");
    return (now() - began) / TIMES;
}

int main(void)
{
    static const struct bench_shape till = {.is = {.buffers = PAGES, .buckets = 256, .files = 4, .page = 8192, .capacity = 512,
                                                   .used = 100, .runs = 1, .relations = 1, .cap = DEFAULT_CAP}};
    static const struct bench_case unpinned = {.usage = 3};
    static double pooled[ROUNDS], blobs[ROUNDS], statements[ROUNDS];
    pool_new(&pool, &till, 0);
    pool_set_back(&pool, &unpinned);
    open_base();
    for (size_t k = 0; k < ROUNDS; k++) {
        pooled[k] = time_of(by_pool);
        blobs[k] = time_of(by_blob);
        statements[k] = time_of(by_statement);
    }
    printf("pick a page, read 64 bytes, write 64: %.0f ns, SQLite %s by a blob %.0f ns, by two statements %.0f ns\n",
           median(pooled, ROUNDS), sqlite3_libversion(), median(blobs, ROUNDS), median(statements, ROUNDS));
    return 0;
}
