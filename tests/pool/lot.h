/* What the programs of cases share that compare all the lent memory after each refusal: it lies in one piece. N buffers and as many
   buckets, blocks of P bytes, FILES files and PLACES blocks in the store are the program's own. File f is (1663, 5, 16384 + f, 0). */
#ifndef LOT_H
#define LOT_H

#include "calls.h"
#include "expect.h"
#include <string.h>

struct lot {
    uint64_t control[MOST_CONTROL], answer[ANSWER_WORDS];
    uint32_t states[N], names[N * NAME_WORDS], rows[FILES * ROW_WORDS];
    int32_t free[N], heads[N], chain[N];
    uint8_t pool[N * P], store[PLACES * P];
    uint16_t counts[N * HOLDERS + 1]; /* one more, so that the slice can be too long */
};

static struct lot lot, before;
static struct memory m = {.control = lot.control, .control_len = CONTROL_WORDS, .answer = lot.answer, .answer_len = ANSWER_WORDS,
                          .states = lot.states, .states_len = N, .names = lot.names, .names_len = N * NAME_WORDS,
                          .rows = lot.rows, .rows_len = FILES * ROW_WORDS, .free = lot.free, .free_len = N,
                          .heads = lot.heads, .heads_len = N, .chain = lot.chain, .chain_len = N,
                          .pool = lot.pool, .pool_len = sizeof lot.pool, .store = lot.store, .store_len = sizeof lot.store,
                          .counts = lot.counts, .counts_len = N * HOLDERS};

/* Makes a call. A refusal has zeros for an answer of four words; nothing else has changed. */
static uint32_t ask(struct request q)
{
    memset(lot.answer, 0x5A, sizeof lot.answer);
    memcpy(&before, &lot, sizeof lot);
    uint32_t result = made_call(&m, &q);
    if (m.answer_len == ANSWER_WORDS) memset(before.answer, 0, sizeof before.answer);
    if (result != 0) expect("change by a refusal", memcmp(&before, &lot, sizeof lot) != 0, 0);
    return result;
}

static uint32_t ask_name(enum call call, uint32_t file, uint32_t block)
{
    return ask((struct request){.call = call, .name = {1663, 5, 16384 + file, 0, block}});
}

/* The buffer that a page is pinned in by a holder. */
static uint64_t pin_by(uint64_t holder, uint32_t file, uint32_t block)
{
    expect("pin", ask((struct request){.call = PIN, .holder = holder, .name = {1663, 5, 16384 + file, 0, block}}), 0);
    return lot.answer[0];
}

static void unpin_by(uint64_t holder, uint64_t buffer)
{
    expect("unpin", ask((struct request){.call = UNPIN, .holder = holder, .buffer = buffer}), 0);
}

/* By holder 0, as all calls that name no other. */
static uint64_t pin(uint32_t file, uint32_t block)
{
    return pin_by(0, file, block);
}

static void unpin(uint64_t buffer)
{
    unpin_by(0, buffer);
}

#endif
