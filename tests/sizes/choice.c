#include "choice.h"
#include "slip.h"
#include <string.h>

#define MOST_BUFFERS 1024
#define MOST_BUCKETS 4096

static size_t larger_than(size_t n, size_t most)
{
    uint32_t kind = random_below(96);
    size_t m = kind < 16 ? n : kind < 32 ? n + 1 : kind == 32 ? MOST_BUFFERS : n + random_below(kind < 64 ? 4 : 20);
    return m < most ? m : most;
}

static size_t some_buckets(size_t n)
{
    size_t b = n + random_below(random_below(8) == 0 ? (uint32_t)(MOST_BUCKETS - n + 1) : 9);
    return b < MOST_BUCKETS ? b : MOST_BUCKETS;
}

/* Each pool its own; with a slip the smaller one has more buffers. */
static void apart(struct sizes *sizes, size_t n, size_t m)
{
    sizes[SMALLER].n = slip == EXCHANGED ? m : n;
    sizes[LARGER].n = slip == EXCHANGED ? n : m;
    for (int k = 0; k < POOLS; k++) {
        sizes[k].buckets = some_buckets(sizes[k].n);
        sizes[k].cap = some_cap();
    }
}

void some_two_sizes(struct sizes *sizes)
{
    size_t most;
    sizes[SMALLER] = sizes[LARGER] = some_sizes();
    most = MOST_POOL / sizes[SMALLER].page_size;
    apart(sizes, sizes[SMALLER].n, larger_than(sizes[SMALLER].n, most < MOST_BUFFERS ? most : MOST_BUFFERS));
}

void two_great_sizes(struct sizes *sizes)
{
    size_t n = MOST_BUFFERS - random_below(25);
    struct sizes s = {.page_size = 1024, .files = 3, .blocks = {400, 400, 400}, .capacity = {400, 420, 400}};
    sizes[SMALLER] = sizes[LARGER] = s;
    apart(sizes, n, n + random_below((uint32_t)(MOST_BUFFERS - n + 1)));
}

/* one of so many pins that the smaller pool could have no buffer for is made nevertheless */
static uint32_t care;
static uint32_t next_page;

void choice_begin(void)
{
    static const uint32_t cares[] = {1, 4, 20, 100};
    care = cares[random_below(4)];
    next_page = 0;
    new_mood();
}

static bool all_pinned(void)
{
    for (size_t i = 0; i < twin.states_len; i++)
        if ((twin.states[i] & 0x3FFFF) == 0) return false;
    return true;
}

static enum call next_call(void)
{
    enum call call = some_call();
    if (ON_BUFFER(call) && pins[SMALLER].open == 0) return PIN;
    if (call == PIN && pins[SMALLER].open > 0 && random_below(care) != 0 && all_pinned()) return UNPIN;
    return call;
}

/* A pin that is open, or with a slip one that was. There is one that is open. */
static size_t some_pin(void)
{
    const struct pins *p = &pins[SMALLER];
    size_t start = random_below((uint32_t)p->made), k = 0;
    bool open = slip != GIVEN_BACK || p->open == 0 || random_below(4) != 0;
    while (k < p->made && !(p->at[(start + k) % p->made].is_accepted && p->at[(start + k) % p->made].is_open == open)) k++;
    return (start + k) % p->made;
}

static void on_pin(struct asked *a, struct request *q)
{
    a->pin = some_pin();
    request_on(q, a->call, pins[SMALLER].at[a->pin].number);
    q->holder = pins[SMALLER].at[slip == OTHERS_PIN ? some_pin() : a->pin].holder;
}

void some_asked(struct asked *a)
{
    struct request q;
    if (random_below(30) == 0) new_mood();
    *a = (struct asked){.call = next_call()};
    if (ON_BUFFER(a->call)) on_pin(a, &q);
    else request_of(&q, a->call);
    if (a->call == GIVE_BACK && pins[SMALLER].open > 0 && random_below(2) == 0) q.holder = pins[SMALLER].at[some_pin()].holder;
    memcpy(a->name, q.name, sizeof a->name);
    a->holder = q.holder;
    a->from = q.from;
    a->position = q.position;
    a->own_len = q.own_len;
}

void next_pin(struct asked *a)
{
    size_t files = twin.rows_len / ROW_WORDS;
    *a = (struct asked){.call = PIN, .holder = random_below(HOLDERS)};
    memcpy(a->name, twin.rows + ROW_WORDS * (next_page % files), FILE_WORDS * sizeof *a->name);
    a->name[NAME_BLOCK] = (uint32_t)(next_page / files);
    next_page++;
}
