#include "pools.h"
#include "slip.h"
#include <string.h>

struct pins pins[POOLS];
volatile sig_atomic_t pool_at_work;

/* the twin's own memory, and each pool's */
static struct memory plain, lents[POOLS];

void pools_new(void)
{
    lent_new();
    plain = twin;
}

void pools_end(void)
{
    twin = plain;
}

static void use(unsigned k)
{
    lent_pool(k);
    twin = lents[k];
}

static uint32_t call_pool(const struct request *q)
{
    pool_at_work = 1;
    uint32_t result = library_call(q);
    pool_at_work = 0;
    return result;
}

/* The slips in what is equal: a byte, or the count, of blocks that can be seen. */
static void make_unequal(size_t page_size)
{
    size_t files = twin.rows_len / ROW_WORDS, chosen = files == 0 ? 0 : random_below((uint32_t)files), start = 0;
    uint32_t *row = twin.rows + ROW_WORDS * chosen;
    if (files == 0 || row[ROW_BLOCKS] == 0) return;
    for (size_t r = 0; r < chosen; r++) start += twin.rows[ROW_WORDS * r + ROW_CAPACITY];
    size_t at = (start + random_below(row[ROW_BLOCKS])) * page_size + random_below((uint32_t)page_size);
    if (slip == STORE_BYTE) twin.store[at] ^= (uint8_t)(1u << random_below(8));
    if (slip == ROW_BLOCK) row[ROW_BLOCKS]--;
}

static bool set_up(unsigned k, const struct sizes *s, uint64_t position)
{
    struct request q = {.call = SET_UP, .page_size = s->page_size, .position = position, .cap = s->cap};
    if (k == LARGER) make_unequal(s->page_size);
    if (k == LARGER && slip == POSITION) q.position = position > 0 ? position - 1 : 1;
    fill_others(s);
    lent_pool(k);
    lent_copy();
    lents[k] = library_memory();
    pins[k].made = pins[k].open = 0;
    return call_pool(&q) == 0;
}

bool pools_set_up(const struct sizes *sizes, uint64_t position)
{
    bool accepted = set_up(SMALLER, &sizes[SMALLER], position) && set_up(LARGER, &sizes[LARGER], position);
    use(SMALLER);
    return accepted;
}

static void ask(unsigned k, const struct asked *a, struct receipt *r)
{
    struct request q = resolved(a, &pins[k]);
    use(k);
    random_fill(twin.answer, ANSWER_WORDS * sizeof *twin.answer);
    lent_copy_part(OWN, q.own_len, random_below(4) != 0);
    uint32_t result = call_pool(&q);
    if (slip == OWN_BYTES && q.call == READ && result != 0 && q.own_len > 0) *(uint8_t *)library_part(OWN) ^= 1;
    receipt_of(r, &q, result);
    pins_enter(&pins[k], a, result, r->answer[0]);
}

void pools_ask(const struct asked *a, struct receipt *got)
{
    ask(SMALLER, a, &got[SMALLER]);
    ask(LARGER, a, &got[LARGER]);
    use(SMALLER);
}
