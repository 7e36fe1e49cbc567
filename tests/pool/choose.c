/* Requests: each fits the twin's memory most of the time, and misses a limit by little now and then. */
#include "generate.h"
#include <string.h>

/* set up, pin, unpin, read, write, flush, give back, checkpoint, peek, extend, drop, log inserted, log flushed, checksum */
static const unsigned moods[][CALLS] = {
    {0, 30, 25, 6, 14, 4, 2, 2, 5, 5, 2, 4, 4, 0},   /* of everything */
    {0, 60, 8, 4, 12, 3, 1, 1, 4, 4, 1, 2, 2, 0},    /* many pins */
    {0, 30, 24, 2, 34, 3, 2, 1, 2, 2, 1, 3, 2, 0},   /* many dirty pages */
    {0, 24, 16, 4, 14, 6, 8, 6, 8, 16, 6, 4, 4, 0},  /* files come and go, and holders */
    {4, 24, 10, 8, 16, 10, 8, 6, 10, 8, 10, 6, 6, 4} /* after memory that was built */
};
#define EVEN (sizeof moods / sizeof *moods - 1)

static const unsigned *mood = moods[0];

/* the holders of the requests to come: few, so that they meet on pages */
static uint32_t holders[4] = {0, 1, 2, HOLDERS - 1};

static void new_holders(void)
{
    for (size_t k = 0; k < 4; k++) holders[k] = random_below(HOLDERS);
    if (random_below(2) == 0) holders[0] = 0;
    if (random_below(2) == 0) holders[3] = HOLDERS - 1;
}

/* one of the few; now and then any, or a number beyond all */
static uint64_t some_holder(void)
{
    const uint64_t beyond[] = {HOLDERS, HOLDERS, HOLDERS + 1, 2 * HOLDERS, 256 + holders[0], 1ull << 32, (1ull << 32) + holders[1],
                               1ull << 63, (1ull << 63) + holders[2], UINT64_MAX, UINT64_MAX - HOLDERS + 1};
    if (random_below(24) == 0) return beyond[random_below(sizeof beyond / sizeof *beyond)];
    return random_below(12) == 0 ? random_below(HOLDERS) : holders[random_below(4)];
}

/* mostly a holder that has a pin on the buffer, or that has none */
static uint64_t holder_on(uint64_t buffer, bool has)
{
    uint32_t start = random_below(HOLDERS), k = 0;
    if (buffer >= twin.states_len || random_below(6) == 0) return some_holder();
    const uint16_t *own = twin.counts + HOLDERS * buffer;
    while (k < HOLDERS && (own[(start + k) % HOLDERS] != 0) != has) k++;
    return k < HOLDERS ? (start + k) % HOLDERS : some_holder();
}

/* for a pin: of a page that is held now and then one that has pins on it, or one that has none */
static uint64_t holder_for(const uint32_t *name)
{
    size_t i = 0;
    while (i < twin.states_len && memcmp(twin.names + NAME_WORDS * i, name, NAME_WORDS * sizeof *name) != 0) i++;
    return random_below(3) == 0 ? some_holder() : holder_on(i, random_below(2) == 0);
}

void new_mood(void)
{
    mood = moods[random_below(EVEN)];
    if (random_below(4) == 0) new_holders();
}

void even_mood(void)
{
    mood = moods[EVEN];
    new_holders();
}

static bool none_pinned(void)
{
    for (size_t i = 0; i < twin.states_len; i++)
        if ((twin.states[i] & 0x3FFFF) != 0) return false;
    return true;
}

/* a call by its weight; where nothing is pinned mostly a pin for a call that would be refused */
enum call some_call(void)
{
    unsigned sum = 0;
    int c = 0;
    for (int k = 0; k < CALLS; k++) sum += mood[k];
    for (unsigned at = random_below(sum); at >= mood[c]; c++) at -= mood[c];
    if ((c == UNPIN || c == READ || c == WRITE || c == FLUSH) && none_pinned() && random_below(8) != 0) c = PIN;
    return (enum call)c;
}

/* the block size, if the control record says a small one */
static uint64_t page_size(void)
{
    return twin.control[CONTROL_SIZE] <= 32768 ? twin.control[CONTROL_SIZE] : 1024;
}

/* the log position of a buffer's page, where the pool has one */
static uint64_t page_position(uint64_t i)
{
    uint64_t p = page_size(), high = 0, low = 0;
    if (i >= twin.states_len || p < 8 || (i + 1) * p > twin.pool_len) return 0;
    for (int k = 3; k >= 0; k--) {
        high = high << 8 | twin.pool[i * p + (unsigned)k];
        low = low << 8 | twin.pool[i * p + 4 + (unsigned)k];
    }
    return high << 32 | low;
}

/* a page that is held, or any block of a file; now and then a file or a block that there is not */
static void some_name(uint32_t *name)
{
    size_t files = twin.rows_len / ROW_WORDS, n = twin.states_len;
    uint32_t i = n == 0 ? 0 : random_below((uint32_t)n);
    if (n > 0 && random_below(4) == 0 && twin.states[i] != 0 && twin.names_len >= NAME_WORDS * n) {
        memcpy(name, twin.names + NAME_WORDS * i, NAME_WORDS * sizeof *name);
    } else if (files > 0) {
        const uint32_t *row = twin.rows + ROW_WORDS * random_below((uint32_t)files);
        for (int tries = 0; tries < 3 && row[ROW_BLOCKS] == 0; tries++) row = twin.rows + ROW_WORDS * random_below((uint32_t)files);
        const uint32_t others[] = {row[ROW_BLOCKS], row[ROW_BLOCKS] + 1, row[ROW_CAPACITY], UINT32_MAX, 1u << 31};
        memcpy(name, row, FILE_WORDS * sizeof *name);
        name[NAME_BLOCK] = row[ROW_BLOCKS] == 0 || random_below(16) == 0 ? others[random_below(5)] : random_below(row[ROW_BLOCKS]);
    } else {
        for (int k = 0; k < NAME_WORDS; k++) name[k] = random_below(3);
    }
    if (random_below(24) == 0) name[random_below(FILE_WORDS)] ^= 1u << random_below(32);
}

/* a buffer with pins if there is one; now and then another, or a number beyond all */
static uint64_t some_buffer(void)
{
    size_t n = twin.states_len;
    const uint64_t beyond[] = {n, n + 1, 1ull << 32, (1ull << 32) + (n > 0), 1ull << 63, UINT64_MAX, UINT64_MAX - 1};
    uint32_t start, k = 0;
    if (n == 0 || random_below(24) == 0) return beyond[random_below(7)];
    start = random_below((uint32_t)n);
    if (random_below(12) == 0) return start;
    while (k < n && (twin.states[(start + k) % n] & 0x3FFFF) == 0) k++;
    return (start + k) % n;
}

/* from and length at the limits of a page, and sums beyond 2^64 */
static void some_edge(struct request *q)
{
    uint64_t p = page_size();
    const uint64_t froms[] = {0, 7, 8, 9, p - 1, p, p + 1, p - 4, UINT64_MAX - random_below(40), UINT64_MAX - random_below(40),
                              1ull << 32, (1ull << 32) + 8, 1ull << 63};
    q->from = froms[random_below(sizeof froms / sizeof *froms)];
    const uint64_t lengths[] = {0, 0, 0, 0, 1, 4, 5, random_below(60), p - q->from, p - q->from + 1, p, p + 1, 0 - q->from, p - 8};
    uint64_t length = lengths[random_below(sizeof lengths / sizeof *lengths)];
    q->own_len = length < MOST_OWN ? (size_t)length : random_below(60);
}

static void some_range(struct request *q)
{
    uint64_t p = page_size();
    if (random_below(6) == 0 || p < 128) {
        some_edge(q);
        return;
    }
    q->own_len = 1 + random_below(40);
    q->from = 8 + random_below(random_below(8) == 0 ? 3 : (uint32_t)p - 8 - (uint32_t)q->own_len + 1);
}

/* a page of any block size, the small ones most often; now and then a length that is none */
static size_t some_page_length(void)
{
    static const size_t others[] = {0, 1, 127, 128, 512, 1023, 1025, 1536, 3072, 8191, 32767, 32769, 33000};
    if (random_below(4) == 0) return others[random_below(sizeof others / sizeof *others)];
    return (size_t)1024 << random_below(random_below(4) == 0 ? 6 : 2);
}

/* a position for a write: from the page's own up to inserted; now and then one beside them */
static uint64_t write_position(uint64_t i)
{
    uint64_t own = page_position(i), inserted = twin.control[CONTROL_INSERTED];
    uint64_t between = inserted >= own && inserted - own < 50 ? inserted - own : 50;
    switch (random_below(10)) {
    case 0: return above(inserted, 1);
    case 1: return below(own, 1);
    case 2: return own;
    case 3: return inserted;
    case 4: return random_below(4) == 0 ? random64() : inserted;
    default: return own <= inserted ? own + random_below((uint32_t)between + 1) : inserted;
    }
}

static uint64_t log_position(enum call call)
{
    uint64_t inserted = twin.control[CONTROL_INSERTED], flushed = twin.control[CONTROL_FLUSHED], room = inserted - flushed;
    uint64_t step = random_below(12);
    if (call == SET_UP) return some_log();
    if (random_below(200) == 0) return random_below(3) == 0 ? UINT64_MAX : random64();
    switch (random_below(5)) {
    case 0: return call == LOG_INSERTED ? below(inserted, 1 + step) : above(inserted, 1 + step);
    case 1: return call == LOG_INSERTED ? inserted : below(flushed, step);
    default: return call == LOG_INSERTED ? above(inserted, step) : above(flushed, step < room ? step : room);
    }
}

static uint64_t some_page_size(void)
{
    static const uint64_t others[] = {0, 1, 512, 1023, 1025, 1536, 2048, 4096, 65536, 1ull << 32, (1ull << 32) + 1024, UINT64_MAX};
    if (random_below(8) == 0) return others[random_below(sizeof others / sizeof *others)];
    return twin.states_len > 0 ? twin.pool_len / twin.states_len : 1024;
}

void some_request(struct request *q)
{
    request_of(q, some_call());
}

void request_of(struct request *q, enum call call)
{
    request_on(q, call, call >= UNPIN && call <= GIVE_BACK ? some_buffer() : 0);
}

void request_on(struct request *q, enum call call, uint64_t buffer)
{
    *q = (struct request){.call = call, .buffer = buffer, .own = twin_own};
    switch (call) {
    case PIN:
    case PEEK:
    case EXTEND:
    case DROP: some_name(q->name); break;
    case GIVE_BACK:
    case READ:
    case WRITE:
        some_range(q);
        if (call == WRITE) q->position = write_position(buffer);
        break;
    case UNPIN:
    case FLUSH:
    case CHECKPOINT: break;
    case CHECKSUM:
        q->own_len = some_page_length();
        q->name[NAME_BLOCK] = random_below(2) == 0 ? random_below(8) : (uint32_t)random64();
        break;
    default: q->position = log_position(call); break;
    }
    if (call == SET_UP) {
        q->page_size = some_page_size();
        q->cap = random_below(6) == 0 ? bad_cap() : some_cap();
    }
    if (call == PIN) q->holder = holder_for(q->name);
    else if (call == GIVE_BACK) q->holder = some_holder();
    else if (NAMES_HOLDER(call)) q->holder = holder_on(buffer, true);
    random_fill(twin_own, q->own_len);
    if (random_below(8) == 0) memset(twin_own, random_below(4) == 0 ? 255 : 0, q->own_len);
}
