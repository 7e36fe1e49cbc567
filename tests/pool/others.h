/* What the cases of the cap and of holders share: N = 3, B = 3, P = 1024, log 100; the bench's file, with 4 blocks of zeros and capacity 5,
   and another with 1 block, capacity 2; a pool of them in use, and each call as it is accepted of it. */
#ifndef OTHERS_H
#define OTHERS_H

enum { N = 3, P = 1024, FILES = 2, PLACES = 7, LOG = 100 };

#include "lot.h"

/* a read's out, a write's bytes */
static uint8_t own[4];

/* each call but set up, as it is accepted of a pool that is in use; those that name a holder name holder 0 */
static const struct request others[] = {
    {.call = PIN, .name = {1663, 5, 16384, 0, 0}},
    {.call = PIN, .name = {1663, 5, 16384, 0, 3}},
    {.call = UNPIN, .buffer = 0},
    {.call = READ, .buffer = 0, .from = 8, .own = own, .own_len = sizeof own},
    {.call = WRITE, .buffer = 0, .from = 8, .own = own, .own_len = sizeof own, .position = LOG},
    {.call = FLUSH, .buffer = 0},
    {.call = GIVE_BACK},
    {.call = CHECKPOINT},
    {.call = PEEK, .name = {1663, 5, 16384, 0, 0}},
    {.call = PEEK, .name = {1663, 5, 16384, 0, 3}},
    {.call = EXTEND, .name = {1663, 5, 16385, 0}},
    {.call = DROP, .name = {1663, 5, 16385, 0}},
    {.call = LOG_INSERTED, .position = LOG + 1},
    {.call = LOG_FLUSHED, .position = LOG},
};
enum { OTHERS = sizeof others / sizeof *others };

/* The kth of them: what it results in. A refused read fills nothing in. */
static uint32_t ask_other(size_t k)
{
    static const uint8_t kept[sizeof own] = {1, 2, 3, 4};
    memcpy(own, kept, sizeof own);
    uint32_t result = ask(others[k]);
    if (result != 0) expect("change of a read's out", memcmp(own, kept, sizeof own) != 0, 0);
    return result;
}

static uint32_t ask_set_up(uint64_t cap)
{
    return ask((struct request){.call = SET_UP, .page_size = P, .position = LOG, .cap = cap});
}

/* Any contents but for rows and store. */
static void unset(void)
{
    const uint32_t rows[FILES * ROW_WORDS] = {1663, 5, 16384, 0, 4, 5, 1663, 5, 16385, 0, 1, 2};
    memset(&lot, 0x5A, sizeof lot);
    memset(lot.store, 0, sizeof lot.store);
    memcpy(lot.rows, rows, sizeof rows);
}

static void set_up(uint64_t cap)
{
    unset();
    expect("set up", ask_set_up(cap), 0);
}

/* A pool in use: blocks 0, 1, 2 in buffers 0, 1, 2, the last of them without pins. */
static void fill(uint64_t cap)
{
    set_up(cap);
    for (uint32_t b = 0; b < N; b++) expect("buffer", pin(0, b), b);
    unpin(2);
}

static uint32_t word(uint64_t usage, uint64_t pins)
{
    return (uint32_t)(0x83000000u + usage * 0x40000 + pins);
}

/* Every call but set up is among the others. */
static void expect_every_call(void)
{
    uint32_t tried = 1u << SET_UP;
    for (size_t k = 0; k < OTHERS; k++) tried |= 1u << others[k].call;
    expect("calls tried", tried, (2u << LOG_FLUSHED) - 1);
}

#endif
