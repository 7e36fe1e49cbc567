#include "generate.h"
#include "sum.h"
#include <string.h>

uint64_t random64(void)
{
    uint64_t high = random_below(UINT32_MAX);
    return high << 32 | random_below(UINT32_MAX);
}

void random_fill(void *at, size_t bytes)
{
    uint64_t x = random64() | 1;
    uint8_t *to = at;
    for (size_t k = 0; k < bytes; k += 8) {
        x ^= x << 13;
        x ^= x >> 7;
        x ^= x << 17;
        memcpy(to + k, &x, bytes - k < 8 ? bytes - k : 8);
    }
}

uint64_t below(uint64_t position, uint64_t by)
{
    return position > by ? position - by : 0;
}

uint64_t above(uint64_t position, uint64_t by)
{
    return position < UINT64_MAX - by ? position + by : UINT64_MAX;
}

uint64_t some_log(void)
{
    static const uint64_t logs[] = {0, 100, 100, UINT32_MAX - 5u, 1ull << 32, 0x116B374D0, 1ull << 63, UINT64_MAX - 40, UINT64_MAX};
    return logs[random_below(sizeof logs / sizeof *logs)];
}

struct sizes some_sizes(void)
{
    bool middling = random_below(64) == 0;
    struct sizes s = {.n = 1 + random_below(random_below(3) == 0 ? 3 : 8), .page_size = 1024, .files = 1 + random_below(4),
                      .cap = some_cap()};
    if (middling) s.n = 60 + random_below(5);
    if (random_below(8) == 0) s.page_size = random_below(4) == 0 ? 1024u << random_below(6) : 2048;
    if (random_below(20) == 0) s.files = 0;
    s.buckets = s.n + random_below(9);
    for (size_t r = 0; r < s.files; r++) {
        s.capacity[r] = random_below(middling ? 40 : 10);
        s.blocks[r] = random_below(3) != 0 ? (uint32_t)below(s.capacity[r], random_below(3)) : random_below(s.capacity[r] + 1);
    }
    return s;
}

struct sizes great_sizes(unsigned kind)
{
    struct sizes s = {.n = 1024, .buckets = 4096, .page_size = 1024, .files = 64};
    if (kind == 1) s = (struct sizes){.n = 1023, .buckets = 4095, .page_size = 1024, .files = 63};
    s.cap = some_cap();
    if (kind == 2) s.n = 1025;
    if (kind == 3) s.buckets = 4097;
    if (kind == 4) s.files = 65;
    for (size_t r = 0; r < s.files; r++) s.blocks[r] = s.capacity[r] = s.files == 65 ? 1000 : 1024;
    if (kind == 5) s.capacity[63]++;
    return s;
}

static void put_position(uint8_t *page, uint64_t position)
{
    uint64_t words = position >> 32 | position << 32;
    for (int k = 0; k < 8; k++) page[k] = (uint8_t)(words >> 8 * k);
}

/* a file's numbers, with few values, so that files differ in one number only, and zeros and great ones occur */
static void some_file(uint32_t *row)
{
    static const uint32_t spaces[] = {1663, 1664, 0, UINT32_MAX}, relations[] = {16384, 16385, 0, 1u << 31};
    row[FILE_TABLESPACE] = spaces[random_below(4)];
    row[FILE_DATABASE] = random_below(3) * 5;
    row[FILE_RELATION] = relations[random_below(4)];
    row[FILE_FORK] = random_below(3);
}

static bool file_is_new(const uint32_t *rows, size_t r)
{
    for (size_t k = 0; k < r; k++)
        if (memcmp(rows + ROW_WORDS * k, rows + ROW_WORDS * r, FILE_WORDS * sizeof *rows) == 0) return false;
    return true;
}

static void fill_rows(const struct sizes *s)
{
    for (size_t r = 0; r < s->files; r++) {
        uint32_t *row = twin.rows + ROW_WORDS * r, many[FILE_WORDS] = {1663, 5, 16384 + (uint32_t)r / 3, (uint32_t)r % 3};
        do {
            if (s->files > 8) memcpy(row, many, sizeof many);
            else some_file(row);
        } while (!file_is_new(twin.rows, r));
        row[ROW_BLOCKS] = s->blocks[r];
        row[ROW_CAPACITY] = s->capacity[r];
    }
}

/* blocks have their checksums; one of 16 is zeros, and one of 16 is bad */
static void seal_blocks(const struct sizes *s)
{
    uint8_t *start = twin.store;
    for (size_t r = 0; r < s->files; r++) {
        for (uint32_t b = 0; b < s->blocks[r]; b++) {
            uint8_t *page = start + b * s->page_size;
            uint32_t kind = random_below(16);
            if (kind == 0) memset(page, 0, s->page_size);
            else put_sum(page, page_sum(page, s->page_size, b));
            if (kind == 1 && !s->all_pass) spoil_block(page, s->page_size, b);
        }
        start += s->capacity[r] * s->page_size;
    }
}

/* the store's pages have positions up to the log's end, few beyond it */
static void fill_store(const struct sizes *s, uint64_t log)
{
    size_t blocks = 0;
    for (size_t r = 0; r < s->files; r++) blocks += s->capacity[r];
    twin.store_len = blocks * s->page_size;
    random_fill(twin.store, twin.store_len);
    for (size_t k = 0; k < blocks; k++)
        if (random_below(32) != 0) put_position(twin.store + k * s->page_size, below(log, random_below(50)));
    seal_blocks(s);
}

void fill_others(const struct sizes *s)
{
    twin.control_len = CONTROL_WORDS;
    twin.answer_len = ANSWER_WORDS;
    twin.states_len = twin.free_len = twin.chain_len = s->n;
    twin.names_len = NAME_WORDS * s->n;
    twin.pool_len = s->n * s->page_size;
    twin.heads_len = s->buckets;
    twin.counts_len = HOLDERS * s->n;
    for (int k = 0; k < OWN; k++)
        if (k != ROWS && k != STORE) random_fill((void *)twin_part((enum part)k), part_length((enum part)k, NULL) * part_sizes[k]);
}

void fill_unset(const struct sizes *s, uint64_t log)
{
    twin.rows_len = ROW_WORDS * s->files;
    fill_rows(s);
    fill_store(s, log);
    fill_others(s);
}

/* the numbers below n in any order */
static void shuffled(uint32_t *numbers, size_t n)
{
    for (size_t k = 0; k < n; k++) {
        size_t j = random_below((uint32_t)k + 1);
        numbers[k] = numbers[j];
        numbers[j] = (uint32_t)k;
    }
}

/* the kth of all the pages below their files' block counts */
static void name_page(const struct sizes *s, uint32_t k, uint32_t *name)
{
    size_t r = 0;
    for (; k >= s->blocks[r]; r++) k -= s->blocks[r];
    memcpy(name, twin.rows + ROW_WORDS * r, FILE_WORDS * sizeof *name);
    name[NAME_BLOCK] = k;
}

/* holders with pins: few, on every buffer, or any; all 64 and all but one too */
static uint32_t some_holders(unsigned style)
{
    static const uint32_t many[] = {0, 1, 2, 3, HOLDERS - 1, HOLDERS, 0, HOLDERS - 1};
    if (style == 0) return random_below(4) == 0;
    return many[style == 1 ? 1 + random_below(5) : random_below(8)];
}

/* so many holders have pins on a buffer, from any one on, at an odd distance from each other */
static void fill_counts(size_t i, uint32_t many)
{
    const uint32_t firsts[] = {0, HOLDERS - 1, random_below(HOLDERS)};
    uint32_t first = firsts[random_below(3)], apart = random_below(2) == 0 ? 1 : 1 + 2 * random_below(HOLDERS / 2);
    memset(twin.counts + HOLDERS * i, 0, HOLDERS * sizeof *twin.counts);
    for (uint32_t k = 0; k < many; k++) twin.counts[HOLDERS * i + (first + k * apart) % HOLDERS] = some_count();
}

/* zeros, also where they are not in the checksum's place */
static void clear_page(uint8_t *page, size_t size)
{
    memset(page, 0, size);
    if (random_below(3) == 0) page[SUM_AT + random_below(SUM_BYTES)] = (uint8_t)random_below(256);
}

static void fill_buffer(const struct sizes *s, size_t i, uint32_t page, unsigned style)
{
    uint32_t *name = twin.names + NAME_WORDS * i, dirty = random_below(2), flags = 1u << 31 | 1u << 25 | 1u << 24;
    uint64_t inserted = twin.control[CONTROL_INSERTED];
    uint32_t pins = some_holders(style);
    name_page(s, page, name);
    int32_t *head = &twin.heads[name_hash(name) % s->buckets];
    twin.chain[i] = *head;
    *head = (int32_t)i;
    twin.free[i] = -2;
    twin.states[i] = flags | dirty << 28 | dirty << 23 | random_below(s->cap + 1) << 18 | pins;
    fill_counts(i, pins);
    if (dirty || random_below(8) != 0) put_position(twin.pool + i * s->page_size, below(inserted, random_below(60)));
    if (random_below(8) == 0) clear_page(twin.pool + i * s->page_size, s->page_size);
}

static void fill_lists(const struct sizes *s)
{
    static uint32_t order[1032], pages[65600];
    uint32_t total = 0, used, style = random_below(3);
    for (size_t r = 0; r < s->files; r++) total += s->blocks[r];
    used = total < s->n ? total : (uint32_t)s->n;
    if (random_below(2) == 0) used = random_below(used + 1);
    shuffled(order, s->n);
    shuffled(pages, total);
    for (uint32_t k = 0; k < used; k++) fill_buffer(s, order[k], pages[k], style);
    for (size_t k = used; k < s->n; k++) {
        size_t i = order[k];
        twin.states[i] = 0;
        fill_counts(i, 0);
        memset(twin.names + NAME_WORDS * i, 0, NAME_WORDS * sizeof *twin.names);
        twin.free[i] = twin.control[CONTROL_TOP] == UINT64_MAX ? -1 : (int32_t)twin.control[CONTROL_TOP];
        twin.control[CONTROL_TOP] = i;
    }
}

void fill_sound(const struct sizes *s)
{
    uint64_t inserted = above(some_log(), random_below(100)), flushed = below(inserted, random_below(60));
    fill_unset(s, inserted);
    uint64_t control[CONTROL_WORDS] = {s->page_size, random_below((uint32_t)s->n), UINT64_MAX, inserted,
                                       random_below(8) == 0 ? inserted : flushed, s->cap};
    memcpy(twin.control, control, sizeof control);
    memset(twin.heads, 255, s->buckets * sizeof *twin.heads);
    memset(twin.chain, 255, s->n * sizeof *twin.chain);
    fill_lists(s);
}
