/* What the fixed lists share: two pools over one store, and each call with the receipts that it has to have written out. File 0 has so many
   blocks, of which block b is full of the letter 'a' + b % 26 at log position 50; block 6 is zeros, block 7 is bad. File 1 has one block of
   capacity 2, full of 'z'. Both pools are set up at position 100. */
#ifndef DIRECTED_H
#define DIRECTED_H

#include "expect.h"
#include "pools.h"
#include "slip.h"
#include <string.h>

enum { P = 1024, LOG = 100, ZEROS = 6, BAD = 7 };

static struct receipt got[POOLS];

static void fill_page(uint8_t *page, uint32_t block, int letter)
{
    static const uint8_t position[8] = {0, 0, 0, 0, LOG / 2, 0, 0, 0};
    memset(page, letter, P);
    memcpy(page, position, sizeof position);
    put_sum(page, page_sum(page, P, block));
}

static void fill_file(uint32_t blocks)
{
    const uint32_t rows[2 * ROW_WORDS] = {1663, 5, 16384, 0, blocks, blocks, 1663, 5, 16385, 0, 1, 2};
    memcpy(twin.rows, rows, sizeof rows);
    twin.rows_len = 2 * ROW_WORDS;
    twin.store_len = (blocks + 2) * P;
    for (uint32_t b = 0; b < blocks; b++) fill_page(twin.store + b * P, b, 'a' + (int)(b % 26));
    memset(twin.store + ZEROS * P, 0, P);
    twin.store[BAD * P + 500] ^= 1;
    fill_page(twin.store + blocks * P, 0, 'z');
}

/* A case begins: a list for pools of so many buffers. */
static void list_for(const char *name, size_t smaller, size_t larger, uint32_t blocks)
{
    size_t n = slip == EXCHANGED ? larger : smaller, m = slip == EXCHANGED ? smaller : larger;
    const struct sizes sizes[POOLS] = {{.n = n, .buckets = n + 3, .page_size = P, .cap = 5},
                                       {.n = m, .buckets = 2 * m, .page_size = P, .cap = 1}};
    begin(name);
    pools_end();
    fill_file(blocks);
    expect("set up of both", pools_set_up(sizes, LOG), true);
}

/* Asks both; these are their refusals, and other receipts differ only where refusals do. Gives the call's index in the list. */
static size_t ask_apart(struct asked a, uint32_t smaller, uint32_t larger)
{
    pools_ask(&a, got);
    expect("the smaller pool's refusal", got[SMALLER].refusal, smaller);
    expect("the larger pool's refusal", got[LARGER].refusal, larger);
    expect("a difference of receipts", receipts_differ(&got[SMALLER], &got[LARGER]) != NULL, smaller != larger);
    return pins[SMALLER].made - 1;
}

/* The same of a call that the list may have, with one refusal for both. */
static size_t ask(struct asked a, uint32_t refusal)
{
    expect("a call that is permitted", is_permitted(&a, &pins[SMALLER]), true);
    return ask_apart(a, refusal, refusal);
}

static struct asked by_name(enum call call, uint64_t holder, uint32_t file, uint32_t block)
{
    return (struct asked){.call = call, .holder = holder, .name = {1663, 5, 16384 + file, 0, block}};
}

static struct asked on_pin(enum call call, uint64_t holder, size_t pin)
{
    return (struct asked){.call = call, .holder = holder, .pin = pin};
}

/* Of file 0. */
static size_t pin(uint64_t holder, uint32_t block)
{
    return ask(by_name(PIN, holder, 0, block), 0);
}

static void unpin(uint64_t holder, size_t pin)
{
    ask(on_pin(UNPIN, holder, pin), 0);
}

static void expect_bytes(size_t at, const char *text, size_t many)
{
    expect("the smaller pool's bytes being others", memcmp(got[SMALLER].bytes + at, text, many) != 0, false);
    expect("the larger pool's bytes being others", memcmp(got[LARGER].bytes + at, text, many) != 0, false);
}

/* Both have shown this page, and a byte that was another in one of them would be a difference. */
static void expect_page(const uint8_t *page)
{
    size_t noticed = 0;
    expect("bytes of a page", got[SMALLER].many, P);
    expect_bytes(0, (const char *)page, P);
    for (size_t k = 0; k < P; k++) {
        got[LARGER].bytes[k] ^= 1;
        noticed += receipts_differ(&got[SMALLER], &got[LARGER]) != NULL;
        got[LARGER].bytes[k] ^= 1;
    }
    expect("bytes that are compared", noticed, P);
}

static struct asked reading(uint64_t holder, size_t pin, uint64_t from, size_t many)
{
    memset(twin_own, '?', many);
    return (struct asked){.call = READ, .holder = holder, .pin = pin, .from = from, .own_len = many};
}

/* A read of as many bytes as the text has; a peek of a page of file 0, which has the text there. */
static void reads(uint64_t holder, size_t pin, uint64_t from, const char *text)
{
    ask(reading(holder, pin, from, strlen(text)), 0);
    expect_bytes(0, text, strlen(text));
}

static void peeks(uint32_t block, size_t at, const char *text)
{
    ask(by_name(PEEK, 0, 0, block), 0);
    expect("bytes of a peek", got[SMALLER].many, P);
    expect_bytes(at, text, strlen(text));
}

static void writes(uint64_t holder, size_t pin, uint64_t from, const char *text, uint64_t position, uint32_t refusal)
{
    size_t many = strlen(text);
    memcpy(twin_own, text, many);
    ask((struct asked){.call = WRITE, .holder = holder, .pin = pin, .from = from, .own_len = many, .position = position}, refusal);
    expect_bytes(0, text, many);
}

static void extends(uint32_t file, uint32_t refusal, uint64_t block)
{
    ask(by_name(EXTEND, 0, file, 0), refusal);
    expect("the smaller pool's block", got[SMALLER].block, block);
    expect("the larger pool's block", got[LARGER].block, block);
}

/* A call that the list may not have. */
static bool is_barred(enum call call, uint64_t holder, size_t pin)
{
    struct asked a = on_pin(call, holder, pin);
    return !is_permitted(&a, &pins[SMALLER]);
}

static void logs(enum call call, uint64_t position, uint32_t refusal)
{
    ask((struct asked){.call = call, .position = position}, refusal);
}

#endif
