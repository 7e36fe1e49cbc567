/* The thirteen calls in plain C, as a good C programmer would write them at first. Sizes and books are checked by plain_check of
   bench/books, once for each call; after it the code relies on them. Link with bench/books/plain.c and bench/checksum/plain.c. */
#include "plain.h"
#include "../checksum/plain.h"
#include "memory.h"
#include <stdbool.h>
#include <string.h>

check_fn plain_check;

enum { PIN = 1, PINS = 0x3FFFF, USE = 1 << 18, USES = 15 << 18 };
static const uint32_t DIRTY = 1u << 23 | 1u << 28, CLEAN = 0x83000000u;

/* Parameters and arguments of lent memory. A call says what it changes: control, states, the table (names and links), pool, rows, store,
   counts. */
#define MUT
#define LENDS(c, s, t, p, r, b, k)                                                                                                  \
    c uint64_t *control, size_t control_len, s uint32_t *states, size_t n, t uint32_t *names, size_t names_len, p uint8_t *pool,    \
        size_t pool_len, t int32_t *free, size_t free_len, t int32_t *heads, size_t buckets, t int32_t *chain, size_t chain_len,    \
        r uint32_t *rows, size_t rows_len, b uint8_t *store, size_t store_len, k uint16_t *counts, size_t counts_len
#define FILE_NUMBERS uint32_t tablespace, uint32_t database, uint32_t relation, uint32_t fork
#define ANSWERS uint64_t *answer, size_t answer_len
#define CHECK_WITH(control)                                                                                                        \
    plain_check(control, control_len, states, n, names, names_len, pool, pool_len, free, free_len, heads, buckets, chain, chain_len, \
                rows, rows_len, store, store_len, counts, counts_len, answer, answer_len)

static uint32_t refuse(uint64_t *answer, size_t answer_len, uint32_t number)
{
    if (answer_len == ANSWER_WORDS) memset(answer, 0, ANSWER_WORDS * sizeof *answer);
    return number;
}

static uint32_t accept(uint64_t *answer, uint64_t first, uint64_t second, uint64_t third, uint64_t fourth)
{
    answer[0] = first;
    answer[1] = second;
    answer[2] = third;
    answer[3] = fourth;
    return BUFPOOL_DONE;
}

static uint32_t hash(const uint32_t *name)
{
    uint32_t h = 2166136261u;
    for (int i = 0; i < NAME_WORDS; i++)
        for (int k = 0; k < 32; k += 8) h = (h ^ (name[i] >> k & 255)) * 16777619u;
    return h;
}

static bool same_file(const uint32_t *a, const uint32_t *b)
{
    return a[FILE_RELATION] == b[FILE_RELATION] && a[FILE_TABLESPACE] == b[FILE_TABLESPACE] && a[FILE_DATABASE] == b[FILE_DATABASE] &&
           a[FILE_FORK] == b[FILE_FORK];
}

static uint32_t get_word(const uint8_t *at)
{
    return at[0] | at[1] << 8 | at[2] << 16 | (uint32_t)at[3] << 24;
}

static uint64_t get_position(const uint8_t *page)
{
    return (uint64_t)get_word(page) << 32 | get_word(page + 4);
}

static void put_position(uint8_t *page, uint64_t position)
{
    uint64_t words = position >> 32 | position << 32;
    for (int k = 0; k < 8; k++) page[k] = (uint8_t)(words >> 8 * k);
}

/* A file's row, and the first of its blocks in the store; the number of rows if there is none. */
static size_t find_row(const uint32_t *rows, size_t rows_len, const uint32_t *file, uint64_t *start)
{
    size_t files = rows_len / ROW_WORDS, r = 0;
    uint64_t before = 0;
    for (; r < files && !same_file(rows + ROW_WORDS * r, file); r++) before += rows[ROW_WORDS * r + ROW_CAPACITY];
    *start = before;
    return r;
}

/* The places 3 and 4: a page's place in the store, or the number that refuses its name. */
static uint32_t find_page(const uint32_t *rows, size_t rows_len, const uint32_t *name, uint64_t *place)
{
    uint64_t start;
    size_t r = find_row(rows, rows_len, name, &start);
    if (ROW_WORDS * r == rows_len) return BUFPOOL_NO_FILE;
    if (name[NAME_BLOCK] >= rows[ROW_WORDS * r + ROW_BLOCKS]) return BUFPOOL_NO_BLOCK;
    *place = start + name[NAME_BLOCK];
    return 0;
}

/* The buffer of a chain that has a page, or -1. */
static int32_t find_held(int32_t at, const int32_t *chain, const uint32_t *names, const uint32_t *name)
{
    for (; at >= 0; at = chain[at]) {
        const uint32_t *own = names + NAME_WORDS * at;
        if (own[NAME_BLOCK] == name[NAME_BLOCK] && same_file(own, name)) break;
    }
    return at;
}

/* The link that leads to a buffer takes its own link. */
static void leave_chain(int32_t *heads, size_t buckets, int32_t *chain, const uint32_t *names, size_t i)
{
    int32_t *link = heads + hash(names + NAME_WORDS * i) % (uint32_t)buckets;
    while (*link != (int32_t)i) link = chain + *link;
    *link = chain[i];
}

/* Writes a dirty page back, with its checksum; the page in the pool keeps its own bytes. */
static void write_back(uint64_t *control, uint32_t *states, const uint32_t *names, const uint8_t *pool, const uint32_t *rows,
                       size_t rows_len, uint8_t *store, size_t i)
{
    size_t size = control[CONTROL_SIZE];
    const uint32_t *name = names + NAME_WORDS * i;
    const uint8_t *page = pool + i * size;
    uint64_t start, position = get_position(page);
    find_row(rows, rows_len, name, &start);
    if (control[CONTROL_FLUSHED] < position) control[CONTROL_FLUSHED] = position;
    uint8_t *to = store + (start + name[NAME_BLOCK]) * size;
    memcpy(to, page, size);
    plain_seal(to, size, name[NAME_BLOCK]);
    states[i] &= ~DIRTY;
}

/* The buffer that the sweep takes, or n if all are pinned. */
static size_t sweep(uint64_t *hand, uint32_t *states, size_t n, uint64_t *probes)
{
    size_t at = *hand, pinned = 0;
    for (uint64_t k = 1; pinned < n; k++) {
        size_t here = at;
        uint32_t w = states[here];
        at = here + 1 == n ? 0 : here + 1;
        if ((w & PINS) != 0) {
            pinned++;
        } else if ((w & USES) != 0) {
            states[here] = w - USE;
            pinned = 0;
        } else {
            *hand = at;
            *probes = k;
            return here;
        }
    }
    return n;
}

/* The places 19, 7 and 8. */
static uint32_t buffer_refusal(const uint16_t *counts, size_t n, uint64_t holder, uint64_t buffer)
{
    if (holder >= HOLDERS) return BUFPOOL_NO_HOLDER;
    if (buffer >= n) return BUFPOOL_NO_BUFFER;
    return counts[HOLDERS * buffer + holder] == 0 ? BUFPOOL_NOT_PINNED : 0;
}

static bool in_page(uint64_t size, uint64_t from, uint64_t length)
{
    return from <= size && length <= size - from;
}

uint32_t plain_set_up(LENDS(MUT, MUT, MUT, const, const, const, MUT), uint64_t page_size, uint64_t position, uint64_t cap, ANSWERS)
{
    /* no cap is 0: the check ends behind the sizes, with 1 or 2 */
    const uint64_t sizes_only[CONTROL_WORDS] = {[CONTROL_SIZE] = page_size};
    if (CHECK_WITH(sizes_only) == BUFPOOL_SIZES) return refuse(answer, answer_len, BUFPOOL_SIZES);
    if (cap < BUFPOOL_MIN_CAP || cap > BUFPOOL_MAX_CAP) return refuse(answer, answer_len, BUFPOOL_BAD_CAP);
    memset(states, 0, n * sizeof *states);
    memset(names, 0, names_len * sizeof *names);
    memset(heads, 255, buckets * sizeof *heads);
    memset(chain, 255, n * sizeof *chain);
    memset(counts, 0, counts_len * sizeof *counts);
    for (size_t i = 0; i + 1 < n; i++) free[i] = (int32_t)i + 1;
    free[n - 1] = -1;
    control[CONTROL_SIZE] = page_size;
    control[CONTROL_HAND] = control[CONTROL_TOP] = 0;
    control[CONTROL_INSERTED] = control[CONTROL_FLUSHED] = position;
    control[CONTROL_CAP] = cap;
    return accept(answer, 0, 0, 0, 0);
}

uint32_t plain_pin(LENDS(MUT, MUT, MUT, MUT, const, MUT, MUT), uint64_t holder, FILE_NUMBERS, uint32_t block, ANSWERS)
{
    const uint32_t name[NAME_WORDS] = {tablespace, database, relation, fork, block};
    uint64_t place, probes = 0, wrote = 0, top = 0;
    uint32_t refusal = CHECK_WITH(control);
    if (refusal == 0 && holder >= HOLDERS) refusal = BUFPOOL_NO_HOLDER;
    if (refusal == 0) refusal = find_page(rows, rows_len, name, &place);
    if (refusal != 0) return refuse(answer, answer_len, refusal);

    int32_t *head = heads + hash(name) % (uint32_t)buckets, held = find_held(*head, chain, names, name);
    if (held >= 0) {
        uint16_t *count = counts + HOLDERS * held + holder;
        uint32_t w = states[held];
        if (*count == BUFPOOL_MAX_COUNT) return refuse(answer, answer_len, BUFPOOL_PIN_COUNT);
        if (*count == 0) states[held] = w + PIN + ((w & USES) < control[CONTROL_CAP] * USE ? USE : 0);
        ++*count;
        return accept(answer, (uint64_t)held, 1, 0, 0);
    }
    size_t i = top = control[CONTROL_TOP], size = control[CONTROL_SIZE];
    if (!plain_passes(store + place * size, size, block)) return refuse(answer, answer_len, BUFPOOL_CHECKSUM);
    if (top != BUFPOOL_BUFFER_NONE) {
        control[CONTROL_TOP] = (uint64_t)(int64_t)free[i];
        free[i] = -2;
    } else {
        i = sweep(control + CONTROL_HAND, states, n, &probes);
        if (i == n) return refuse(answer, answer_len, BUFPOOL_ALL_PINNED);
        wrote = (states[i] & DIRTY) != 0;
        if (wrote) write_back(control, states, names, pool, rows, rows_len, store, i);
        leave_chain(heads, buckets, chain, names, i);
    }
    memcpy(names + NAME_WORDS * i, name, sizeof name);
    chain[i] = *head;
    *head = (int32_t)i;
    memcpy(pool + i * size, store + place * size, size);
    states[i] = CLEAN | USE | PIN;
    counts[HOLDERS * i + holder] = 1;
    return accept(answer, i, 0, wrote, probes);
}

uint32_t plain_unpin(LENDS(const, MUT, const, const, const, const, MUT), uint64_t holder, uint64_t buffer, ANSWERS)
{
    uint32_t refusal = CHECK_WITH(control);
    if (refusal == 0) refusal = buffer_refusal(counts, n, holder, buffer);
    if (refusal != 0) return refuse(answer, answer_len, refusal);
    if (--counts[HOLDERS * buffer + holder] == 0) states[buffer] -= PIN;
    return accept(answer, 0, 0, 0, 0);
}

uint32_t plain_read(LENDS(const, const, const, const, const, const, const), uint64_t holder, uint64_t buffer, uint64_t from, uint8_t *out,
                    size_t out_len, ANSWERS)
{
    uint32_t refusal = CHECK_WITH(control);
    if (refusal == 0) refusal = buffer_refusal(counts, n, holder, buffer);
    if (refusal == 0 && !in_page(control[CONTROL_SIZE], from, out_len)) refusal = BUFPOOL_RANGE;
    if (refusal != 0) return refuse(answer, answer_len, refusal);
    memcpy(out, pool + buffer * control[CONTROL_SIZE] + from, out_len);
    return accept(answer, 0, 0, 0, 0);
}

uint32_t plain_write(LENDS(const, MUT, const, MUT, const, const, const), uint64_t holder, uint64_t buffer, uint64_t from,
                     const uint8_t *bytes, size_t bytes_len, uint64_t position, ANSWERS)
{
    uint32_t refusal = CHECK_WITH(control);
    if (refusal == 0) refusal = buffer_refusal(counts, n, holder, buffer);
    if (refusal != 0) return refuse(answer, answer_len, refusal);
    uint8_t *page = pool + buffer * control[CONTROL_SIZE];
    if (from < BUFPOOL_POSITION_BYTES || !in_page(control[CONTROL_SIZE], from, bytes_len)) refusal = BUFPOOL_RANGE;
    else if (bytes_len == 0) refusal = BUFPOOL_NO_BYTES;
    else if (position > control[CONTROL_INSERTED]) refusal = BUFPOOL_NOT_INSERTED;
    else if (position < get_position(page)) refusal = BUFPOOL_EARLIER;
    if (refusal != 0) return refuse(answer, answer_len, refusal);
    memcpy(page + from, bytes, bytes_len);
    put_position(page, position);
    states[buffer] |= DIRTY;
    return accept(answer, 0, 0, 0, 0);
}

uint32_t plain_flush(LENDS(MUT, MUT, const, const, const, MUT, const), uint64_t holder, uint64_t buffer, ANSWERS)
{
    uint32_t refusal = CHECK_WITH(control);
    if (refusal == 0) refusal = buffer_refusal(counts, n, holder, buffer);
    if (refusal != 0) return refuse(answer, answer_len, refusal);
    if ((states[buffer] & DIRTY) == 0) return accept(answer, 0, 0, 0, 0);
    write_back(control, states, names, pool, rows, rows_len, store, buffer);
    return accept(answer, 1, 0, 0, 0);
}

uint32_t plain_give_back(LENDS(const, MUT, const, const, const, const, MUT), uint64_t holder, ANSWERS)
{
    uint32_t refusal = CHECK_WITH(control);
    if (refusal == 0 && holder >= HOLDERS) refusal = BUFPOOL_NO_HOLDER;
    if (refusal != 0) return refuse(answer, answer_len, refusal);
    for (size_t i = 0; i < n; i++) {
        uint16_t *count = counts + HOLDERS * i + holder;
        if (*count == 0) continue;
        *count = 0;
        states[i] -= PIN;
    }
    return accept(answer, 0, 0, 0, 0);
}

uint32_t plain_checkpoint(LENDS(MUT, MUT, const, const, const, MUT, const), ANSWERS)
{
    uint64_t written = 0;
    uint32_t refusal = CHECK_WITH(control);
    if (refusal != 0) return refuse(answer, answer_len, refusal);
    for (size_t i = 0; i < n; i++) {
        if ((states[i] & DIRTY) == 0) continue;
        write_back(control, states, names, pool, rows, rows_len, store, i);
        written++;
    }
    return accept(answer, written, 0, 0, 0);
}

uint32_t plain_peek(LENDS(const, const, const, const, const, const, const), FILE_NUMBERS, uint32_t block, ANSWERS)
{
    const uint32_t name[NAME_WORDS] = {tablespace, database, relation, fork, block};
    uint64_t place;
    uint32_t refusal = CHECK_WITH(control);
    if (refusal == 0) refusal = find_page(rows, rows_len, name, &place);
    if (refusal != 0) return refuse(answer, answer_len, refusal);
    size_t size = control[CONTROL_SIZE];
    int32_t held = find_held(heads[hash(name) % (uint32_t)buckets], chain, names, name);
    if (held >= 0) return accept(answer, 1, (uint64_t)held * size, 0, 0);
    if (!plain_passes(store + place * size, size, block)) return refuse(answer, answer_len, BUFPOOL_CHECKSUM);
    return accept(answer, 0, place * size, 0, 0);
}

uint32_t plain_extend(LENDS(const, const, const, const, MUT, MUT, const), FILE_NUMBERS, ANSWERS)
{
    const uint32_t file[FILE_WORDS] = {tablespace, database, relation, fork};
    uint64_t start;
    uint32_t refusal = CHECK_WITH(control);
    if (refusal != 0) return refuse(answer, answer_len, refusal);
    size_t row = ROW_WORDS * find_row(rows, rows_len, file, &start), size = control[CONTROL_SIZE];
    if (row == rows_len) return refuse(answer, answer_len, BUFPOOL_NO_FILE);
    uint32_t *blocks = rows + row + ROW_BLOCKS;
    if (*blocks == rows[row + ROW_CAPACITY]) return refuse(answer, answer_len, BUFPOOL_FILE_FULL);
    memset(store + (start + *blocks) * size, 0, size);
    return accept(answer, (*blocks)++, 0, 0, 0);
}

/* Whether one of a file's pages is pinned. */
static bool any_pinned(const uint32_t *states, size_t n, const uint32_t *names, const uint32_t *file)
{
    for (size_t i = 0; i < n; i++)
        if ((states[i] & PINS) != 0 && same_file(names + NAME_WORDS * i, file)) return true;
    return false;
}

uint32_t plain_drop(LENDS(MUT, MUT, MUT, const, MUT, const, const), FILE_NUMBERS, ANSWERS)
{
    const uint32_t file[FILE_WORDS] = {tablespace, database, relation, fork};
    uint64_t start;
    uint32_t refusal = CHECK_WITH(control);
    if (refusal != 0) return refuse(answer, answer_len, refusal);
    size_t row = ROW_WORDS * find_row(rows, rows_len, file, &start);
    if (row == rows_len) return refuse(answer, answer_len, BUFPOOL_NO_FILE);
    if (any_pinned(states, n, names, file)) return refuse(answer, answer_len, BUFPOOL_FILE_PINNED);
    for (size_t i = 0; i < n; i++) {
        uint32_t *name = names + NAME_WORDS * i;
        if (states[i] == 0 || !same_file(name, file)) continue;
        leave_chain(heads, buckets, chain, names, i);
        memset(name, 0, NAME_WORDS * sizeof *name);
        states[i] = 0;
        chain[i] = -1;
        free[i] = (int32_t)control[CONTROL_TOP];
        control[CONTROL_TOP] = i;
    }
    rows[row + ROW_BLOCKS] = 0;
    return accept(answer, 0, 0, 0, 0);
}

uint32_t plain_log_inserted(LENDS(MUT, const, const, const, const, const, const), uint64_t position, ANSWERS)
{
    uint32_t refusal = CHECK_WITH(control);
    if (refusal == 0 && position < control[CONTROL_INSERTED]) refusal = BUFPOOL_LOG_SHORTER;
    if (refusal != 0) return refuse(answer, answer_len, refusal);
    control[CONTROL_INSERTED] = position;
    return accept(answer, 0, 0, 0, 0);
}

uint32_t plain_log_flushed(LENDS(MUT, const, const, const, const, const, const), uint64_t position, ANSWERS)
{
    uint32_t refusal = CHECK_WITH(control);
    if (refusal == 0 && position > control[CONTROL_INSERTED]) refusal = BUFPOOL_FLUSHED_BEYOND;
    if (refusal != 0) return refuse(answer, answer_len, refusal);
    if (position > control[CONTROL_FLUSHED]) control[CONTROL_FLUSHED] = position;
    return accept(answer, 0, 0, 0, 0);
}
