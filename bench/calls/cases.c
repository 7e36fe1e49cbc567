#include "cases.h"
#include "../checksum/plain.h"
#include "plain.h"
#include <stdio.h>
#include <stdlib.h>
#include <string.h>

enum { STEP = 64, RUN = 16 };

/* who has the pins of a case, and another */
enum { HOLDER, SECOND };

#define ANSWER(pool) (pool)->answer, BUFPOOL_ANSWER_WORDS

/* what reads fill and writes take */
static uint8_t bytes[WHOLE];

static size_t buffers(const struct pool *pool)
{
    return pool->lent.states_len;
}

static uint64_t inserted(const struct pool *pool)
{
    return bufpool_inserted(&pool->lent);
}

/* the kth of the buffers in use */
static size_t held_buffer(const struct pool *pool, size_t k)
{
    return pool->held[k % pool->held_count];
}

static const uint32_t *held_name(const struct pool *pool, size_t k)
{
    return pool->lent.names + BUFPOOL_NAME_WORDS * held_buffer(pool, k);
}

/* a page that is not held, another each time in one batch and in the next */
static const uint32_t *other_name(const struct pool *pool, size_t k)
{
    size_t n = buffers(pool);
    return pool->others + BUFPOOL_NAME_WORDS * ((pool->turn * (n / 4) + k) % (3 * n));
}

/* the kth of the dirty buffers behind the quarter at the hand */
static size_t dirty_buffer(const struct pool *pool, size_t k)
{
    size_t quarter = pool->held_count / 4;
    return held_buffer(pool, pool->hand + quarter + k % quarter);
}

static uint32_t pin_held(const struct side *side, struct pool *pool, size_t k)
{
    const uint32_t *name = held_name(pool, k);
    return side->pin(BUFPOOL_LENT(&pool->lent), HOLDER, NAME_OF(name), ANSWER(pool));
}

static uint32_t pin_second(const struct side *side, struct pool *pool, size_t k)
{
    const uint32_t *name = held_name(pool, k);
    return side->pin(BUFPOOL_LENT(&pool->lent), SECOND, NAME_OF(name), ANSWER(pool));
}

static uint32_t pin_other(const struct side *side, struct pool *pool, size_t k)
{
    const uint32_t *name = other_name(pool, k);
    return side->pin(BUFPOOL_LENT(&pool->lent), HOLDER, NAME_OF(name), ANSWER(pool));
}

static uint32_t unpin(const struct side *side, struct pool *pool, size_t k)
{
    return side->unpin(BUFPOOL_LENT(&pool->lent), HOLDER, held_buffer(pool, k), ANSWER(pool));
}

static uint32_t read_some(const struct side *side, struct pool *pool, size_t k)
{
    size_t from = (k & (pool->places - 1)) * STEP;
    return side->read(BUFPOOL_LENT(&pool->lent), HOLDER, held_buffer(pool, k), from, bytes, pool->span, ANSWER(pool));
}

/* of a whole page all bytes but the log position */
static uint32_t write_some(const struct side *side, struct pool *pool, size_t k)
{
    size_t from = BUFPOOL_POSITION_BYTES + (k & (pool->places - 1)) * STEP, most = bufpool_page_size(&pool->lent) - from;
    return side->write(BUFPOOL_LENT(&pool->lent), HOLDER, dirty_buffer(pool, k), from, bytes, pool->span < most ? pool->span : most,
                       inserted(pool), ANSWER(pool));
}

static uint32_t flush(const struct side *side, struct pool *pool, size_t k)
{
    return side->flush(BUFPOOL_LENT(&pool->lent), HOLDER, dirty_buffer(pool, k), ANSWER(pool));
}

static uint32_t give_back(const struct side *side, struct pool *pool, size_t k)
{
    (void)k;
    return side->give_back(BUFPOOL_LENT(&pool->lent), HOLDER, ANSWER(pool));
}

static uint32_t give_nothing(const struct side *side, struct pool *pool, size_t k)
{
    (void)k;
    return side->give_back(BUFPOOL_LENT(&pool->lent), SECOND, ANSWER(pool));
}

static uint32_t checkpoint(const struct side *side, struct pool *pool, size_t k)
{
    (void)k;
    return side->checkpoint(BUFPOOL_LENT(&pool->lent), ANSWER(pool));
}

static uint32_t peek_held(const struct side *side, struct pool *pool, size_t k)
{
    const uint32_t *name = held_name(pool, k);
    return side->peek(BUFPOOL_LENT(&pool->lent), NAME_OF(name), ANSWER(pool));
}

static uint32_t peek_other(const struct side *side, struct pool *pool, size_t k)
{
    const uint32_t *name = other_name(pool, k);
    return side->peek(BUFPOOL_LENT(&pool->lent), NAME_OF(name), ANSWER(pool));
}

static uint32_t extend(const struct side *side, struct pool *pool, size_t k)
{
    const uint32_t *row = pool->lent.rows + BUFPOOL_ROW_WORDS * (k % pool->files);
    return side->extend(BUFPOOL_LENT(&pool->lent), FILE_OF(row), ANSWER(pool));
}

static uint32_t drop(const struct side *side, struct pool *pool, size_t k)
{
    const uint32_t *row = pool->lent.rows + BUFPOOL_ROW_WORDS * (k % pool->files);
    return side->drop(BUFPOOL_LENT(&pool->lent), FILE_OF(row), ANSWER(pool));
}

static uint32_t log_inserted(const struct side *side, struct pool *pool, size_t k)
{
    (void)k;
    return side->log_inserted(BUFPOOL_LENT(&pool->lent), inserted(pool) + 1, ANSWER(pool));
}

static uint32_t log_flushed(const struct side *side, struct pool *pool, size_t k)
{
    (void)k;
    return side->log_flushed(BUFPOOL_LENT(&pool->lent), inserted(pool), ANSWER(pool));
}

static uint32_t set_up(const struct side *side, struct pool *pool, size_t k)
{
    return side->set_up(BUFPOOL_LENT(&pool->lent), bufpool_page_size(&pool->kept), k, DEFAULT_CAP, ANSWER(pool));
}

/* The state of most cases: every page is pinned and was used, a quarter of them is dirty, and calls change nothing that matters. */
#define IN_USE .count = 1, .usage = 3, .dirty = DIRTY_NEXT, .batch = ANY_NUMBER

/* unless a case says more, every buffer has a clean page, no pins and usage 0, and is set back for each call */
const struct bench_case bench_cases[] = {
    {.name = "pin, hit", .call = pin_held, .kind = STILL, IN_USE},
    {.name = "pin, hit, second holder", .call = pin_second, .kind = STILL, .count = 1, .usage = 3, .dirty = DIRTY_NEXT, .batch = QUARTER},
    {.name = "pin, free buffer", .call = pin_other, .kind = SUMMED, .batch = QUARTER, .empty = 1},
    {.name = "pin, clean victim", .call = pin_other, .kind = SUMMED, .dirty = DIRTY_NEXT, .batch = QUARTER, .all_sizes = 1},
    {.name = "pin, block of zeros", .call = pin_other, .kind = SUMMED, .dirty = DIRTY_NEXT, .batch = QUARTER, .all_sizes = 1, .zeros = 1},
    {.name = "pin, dirty victim", .call = pin_other, .kind = SUMMED, .dirty = DIRTY_HAND, .batch = QUARTER, .all_sizes = 1},
    {.name = "pin, longest sweep", .call = pin_other, .kind = SUMMED, .usage = DEFAULT_CAP, .dirty = DIRTY_NEXT, .batch = ONE},
    {.name = "unpin", .call = unpin, .kind = STILL, .count = 60000, .usage = 3, .dirty = DIRTY_NEXT, .batch = ANY_NUMBER},
    {.name = "unpin, a holder's last", .call = unpin, .count = 1, .usage = 3, .dirty = DIRTY_NEXT, .batch = QUARTER},
    {.name = "read 64 bytes", .call = read_some, .kind = STILL, .span = 64, IN_USE},
    {.name = "read 1 KiB", .call = read_some, .span = 1024, IN_USE},
    {.name = "read 4,000 bytes", .call = read_some, .span = 4000, IN_USE},
    {.name = "read a whole page", .call = read_some, .span = WHOLE, .all_sizes = 1, IN_USE},
    {.name = "write 64 bytes", .call = write_some, .kind = STILL, .span = 64, IN_USE},
    {.name = "write 1 KiB", .call = write_some, .span = 1024, IN_USE},
    {.name = "write 4,000 bytes", .call = write_some, .span = 4000, IN_USE},
    {.name = "write a whole page", .call = write_some, .span = WHOLE, IN_USE},
    {.name = "flush", .call = flush, .kind = SUMMED, .all_sizes = 1, .count = 1, .usage = 3, .dirty = DIRTY_NEXT, .batch = QUARTER},
    {.name = "give back, of all pages", .call = give_back, .count = 1, .usage = 3, .dirty = DIRTY_NEXT, .batch = ONE},
    {.name = "give back, of none", .call = give_nothing, .kind = STILL, IN_USE},
    {.name = "checkpoint, all clean", .call = checkpoint, .kind = STILL, .count = 1, .usage = 3, .batch = ANY_NUMBER},
    {.name = "checkpoint, N / 4 dirty", .call = checkpoint, .kind = SUMMED, .count = 1, .usage = 3, .dirty = DIRTY_NEXT, .batch = ONE},
    {.name = "peek, held", .call = peek_held, .kind = STILL, IN_USE},
    {.name = "peek, not held", .call = peek_other, .kind = SUMMED, .all_sizes = 1, IN_USE},
    {.name = "peek, block of zeros", .call = peek_other, .kind = SUMMED, .all_sizes = 1, .zeros = 1, IN_USE},
    {.name = "extend", .call = extend, .count = 1, .usage = 3, .dirty = DIRTY_NEXT, .batch = QUARTER},
    {.name = "drop", .call = drop, .usage = 3, .dirty = DIRTY_NEXT, .batch = FOR_EACH_FILE},
    {.name = "log inserted", .call = log_inserted, .kind = STILL, IN_USE},
    {.name = "log flushed", .call = log_flushed, .kind = STILL, IN_USE},
    {.name = "set up", .call = set_up, .no_books = 1, IN_USE},
};
const size_t bench_case_count = sizeof bench_cases / sizeof *bench_cases;

static void *room_for(size_t bytes_needed)
{
    void *room = malloc(bytes_needed);
    if (room == NULL) {
        perror("room_for");
        exit(2);
    }
    return room;
}

static void *copy_of(const void *from, size_t length)
{
    return memcpy(room_for(length), from, length);
}

/* What a set-back needs: everything but pool and store, whose bytes it may leave. */
static void keep(struct pool *pool)
{
    struct bufpool *m = &pool->lent, *kept = &pool->kept;
    kept->control = copy_of(m->control, m->control_len * sizeof *m->control);
    kept->names = copy_of(m->names, m->names_len * sizeof *m->names);
    kept->free = copy_of(m->free, m->free_len * sizeof *m->free);
    kept->heads = copy_of(m->heads, m->heads_len * sizeof *m->heads);
    kept->chain = copy_of(m->chain, m->chain_len * sizeof *m->chain);
    kept->rows = copy_of(m->rows, m->rows_len * sizeof *m->rows);
}

static void note_held(struct pool *pool)
{
    pool->held = room_for(buffers(pool) * sizeof *pool->held);
    for (size_t i = 0; i < buffers(pool); i++)
        if (pool->lent.states[i] != 0) pool->held[pool->held_count++] = (uint32_t)i;
}

static int is_held(const struct pool *pool, const uint32_t *name)
{
    for (size_t k = 0; k < pool->held_count; k++)
        if (memcmp(held_name(pool, k), name, BUFPOOL_NAME_WORDS * sizeof *name) == 0) return 1;
    return 0;
}

/* in runs of 16 blocks of a file, from the files' beginning on */
static void note_others(struct pool *pool)
{
    size_t found = 0, n = buffers(pool);
    pool->others = room_for(3 * n * BUFPOOL_NAME_WORDS * sizeof *pool->others);
    for (size_t k = 0; found < 3 * n; k++) {
        uint32_t *name = pool->others + BUFPOOL_NAME_WORDS * found;
        memcpy(name, pool->lent.rows + BUFPOOL_ROW_WORDS * (k / RUN % pool->files), FILE_WORDS * sizeof *name);
        name[BUFPOOL_NAME_AT_BLOCK] = (uint32_t)(k / RUN / pool->files * RUN + k % RUN);
        if (!is_held(pool, name)) found++;
    }
}

void pool_new(struct pool *pool, const struct bench_shape *shape, int pages_move)
{
    struct bench_shape dirty = *shape;
    struct memory m;
    dirty.is.dirty = 100; /* so that every page has a log position that a dirty page may have */
    shape_new(&m, &dirty);
    memset(pool, 0, sizeof *pool);
    pool->files = shape->is.files;
    pool->lent = (struct bufpool){m.control, m.control_len, m.states, m.states_len, m.names, m.names_len, m.pool, m.pool_len,
                                  m.free, m.free_len, m.heads, m.heads_len, m.chain, m.chain_len, m.rows, m.rows_len,
                                  m.store, m.store_len, m.counts, m.counts_len};
    /* files are half full, so that they can be extended, but where blocks were chosen among all */
    for (size_t r = 0; r < pool->files && !shape->crowded; r++) m.rows[BUFPOOL_ROW_WORDS * r + BUFPOOL_ROW_AT_BLOCKS] /= 2;
    if (pages_move) memset(m.store, 0, m.store_len);
    note_held(pool);
    note_others(pool);
    keep(pool);
}

/* Any bytes behind a log position, with their checksum. */
static void fill_block(uint8_t *at, size_t size, uint32_t block, uint64_t position)
{
    for (size_t k = 0; k < size; k += WORD_BYTES) {
        uint32_t word = k == 0 ? (uint32_t)(position >> 32) : k == WORD_BYTES ? (uint32_t)position : random_below(UINT32_MAX);
        memcpy(at + k, &word, sizeof word);
    }
    plain_seal(at, size, block);
}

void pool_fill_store(struct pool *pool, const struct bench_case *c)
{
    size_t size = bufpool_page_size(&pool->kept);
    uint8_t *start = pool->lent.store;
    for (size_t r = 0; r < pool->files; r++) {
        const uint32_t *row = pool->kept.rows + BUFPOOL_ROW_WORDS * r;
        for (uint32_t block = 0; block < row[BUFPOOL_ROW_AT_BLOCKS]; block++) {
            if (c->zeros) memset(start + block * size, 0, size);
            else fill_block(start + block * size, size, block, bufpool_inserted(&pool->kept));
        }
        start += row[BUFPOOL_ROW_AT_CAPACITY] * size;
    }
}

static void set_words(struct pool *pool, const struct bench_case *c)
{
    size_t quarter = pool->held_count / 4, first = c->dirty == DIRTY_HAND ? 0 : quarter;
    for (size_t k = 0; k < pool->held_count; k++) {
        int is_dirty = c->dirty != CLEAN_POOL && k >= first && k < first + quarter;
        size_t i = held_buffer(pool, pool->hand + k);
        pool->lent.states[i] = (is_dirty ? 590u : 524u) << 22 | c->usage << 18 | (c->count != 0);
        pool->lent.counts[BUFPOOL_MAX_HOLDERS * i + HOLDER] = c->count;
    }
}

/* bytes are read and written in steps from the page's beginning, as far as they fit behind the log position */
static void set_span(struct pool *pool, size_t span)
{
    size_t page = bufpool_page_size(&pool->kept);
    pool->span = span < page ? span : page;
    for (pool->places = 1; BUFPOOL_POSITION_BYTES + (2 * pool->places - 1) * STEP + pool->span <= page;) pool->places *= 2;
}

void pool_set_back(struct pool *pool, const struct bench_case *c)
{
    struct bufpool *m = &pool->lent, *kept = &pool->kept;
    memcpy(m->control, kept->control, m->control_len * sizeof *m->control);
    memcpy(m->names, kept->names, m->names_len * sizeof *m->names);
    memcpy(m->free, kept->free, m->free_len * sizeof *m->free);
    memcpy(m->heads, kept->heads, m->heads_len * sizeof *m->heads);
    memcpy(m->chain, kept->chain, m->chain_len * sizeof *m->chain);
    memcpy(m->rows, kept->rows, m->rows_len * sizeof *m->rows);
    memset(m->states, 0, m->states_len * sizeof *m->states);
    memset(m->counts, 0, m->counts_len * sizeof *m->counts);
    pool->hand = pool->turn++ * (pool->held_count / 4) % pool->held_count;
    m->control[BUFPOOL_CONTROL_AT_HAND] = held_buffer(pool, pool->hand);
    set_words(pool, c);
    set_span(pool, c->span);
    if (c->empty)
        plain_set_up(BUFPOOL_LENT(m), bufpool_page_size(kept), bufpool_inserted(kept), DEFAULT_CAP, ANSWER(pool));
}

size_t batch_of(const struct pool *pool, const struct bench_case *c)
{
    switch (c->batch) {
    case ONE: return 1;
    case FOR_EACH_FILE: return pool->files;
    case QUARTER: return buffers(pool) / 4;
    default: return SIZE_MAX;
    }
}
