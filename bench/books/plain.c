/* The check of lent memory in plain C, as a good C programmer would write it at first: what the benchmark compares with. Each file is
   hashed once, its row is guessed by a table of 256 bytes, and each chain is walked once. */
#include <stdbool.h>
#include <stddef.h>
#include <stdint.h>

#include "memory.h"

check_fn plain_check;

enum { MOST_BUFFERS = 1024, MOST_BUCKETS = 4096, MOST_FILES = 64, MOST_BLOCKS = 65536, SLOT_BITS = 8, SLOTS = 1 << SLOT_BITS };
enum { PINS = 0x3FFFF };

static uint32_t mix(uint32_t h, uint32_t w)
{
    for (int k = 0; k < WORD_BYTES; k++) {
        h = (h ^ (w & 255)) * 16777619u;
        w >>= 8;
    }
    return h;
}

static bool same_file(const uint32_t *row, const uint32_t *file)
{
    return row[FILE_RELATION] == file[FILE_RELATION] && row[FILE_TABLESPACE] == file[FILE_TABLESPACE] &&
           row[FILE_DATABASE] == file[FILE_DATABASE] && row[FILE_FORK] == file[FILE_FORK];
}

/* blocks first: in a chain they differ more often than files do */
static bool same_name(const uint32_t *a, const uint32_t *b)
{
    return a[NAME_BLOCK] == b[NAME_BLOCK] && same_file(a, b);
}

/* where the guess for a file's row stands: by a product, so that few files with neighbouring relation numbers, or numbers 64 apart, share
   a slot */
static size_t slot_of(const uint32_t *file)
{
    return ((4 * file[FILE_RELATION] + file[FILE_FORK]) * 2654435761u) >> (32 - SLOT_BITS);
}

/* the row of a file, or the number of rows if it has none */
static size_t find_row(const uint32_t *rows, size_t files, size_t guess, const uint32_t *file)
{
    size_t r = 0;
    if (guess < files && same_file(rows + ROW_WORDS * guess, file)) return guess;
    while (r < files && !same_file(rows + ROW_WORDS * r, file)) r++;
    return r;
}

static void hash_files(const uint32_t *rows, size_t files, uint32_t *hashes, uint8_t *guesses)
{
    for (size_t r = 0; r < files; r++) {
        const uint32_t *row = rows + ROW_WORDS * r;
        hashes[r] = mix(mix(mix(mix(2166136261u, row[FILE_TABLESPACE]), row[FILE_DATABASE]), row[FILE_RELATION]), row[FILE_FORK]);
        guesses[slot_of(row)] = (uint8_t)r;
    }
}

static bool rows_ok(const uint32_t *rows, size_t files, uint64_t *blocks)
{
    uint64_t sum = 0;
    if (files > MOST_FILES) return false;
    for (size_t r = 0; r < files; r++) sum += rows[ROW_WORDS * r + ROW_CAPACITY];
    if (sum > MOST_BLOCKS) return false;
    for (size_t r = 0; r < files; r++) {
        const uint32_t *row = rows + ROW_WORDS * r;
        if (row[FILE_FORK] > 2 || row[ROW_BLOCKS] > row[ROW_CAPACITY]) return false;
        for (size_t s = 0; s < r; s++)
            if (same_file(rows + ROW_WORDS * s, row)) return false;
    }
    *blocks = sum;
    return true;
}

static bool size_ok(uint64_t size)
{
    switch (size) {
    case 1024: case 2048: case 4096: case 8192: case 16384: case 32768: return true;
    default: return false;
    }
}

static uint32_t word(const uint8_t *p)
{
    return p[0] | p[1] << 8 | p[2] << 16 | (uint32_t)p[3] << 24;
}

static bool empty_ok(const uint32_t *name, int32_t link)
{
    uint32_t file = name[FILE_TABLESPACE] | name[FILE_DATABASE] | name[FILE_RELATION] | name[FILE_FORK];
    return (file | name[NAME_BLOCK]) == 0 && link == -1;
}

/* usage and flags of a buffer in use; the log position of its page if it is dirty */
static bool word_ok(uint64_t cap, uint32_t w, const uint8_t *page, uint64_t inserted)
{
    if ((w >> 18 & 15) > cap || (w >> 22 != 524 && w >> 22 != 590)) return false;
    return (w >> 23 & 1) == 0 || ((uint64_t)word(page) << 32 | word(page + 4)) <= inserted;
}

/* whether the free list has so many buffers; those in use have no link that leads on */
static bool list_ok(int32_t at, const int32_t *links, size_t n, size_t left)
{
    while (at != -1) {
        if (at < 0 || left == 0 || (size_t)at >= n) return false;
        at = links[at];
        left--;
    }
    return left == 0;
}

/* whether the chains have each buffer in use once, in the bucket of its name, and no name twice; so many are in use */
static bool chains_ok(const int32_t *heads, size_t buckets, const int32_t *chain, const uint32_t *states, const uint32_t *names,
                      size_t n, const uint16_t *bucket, size_t left)
{
    for (size_t b = 0; b < buckets; b++)
        for (int32_t at = heads[b]; at != -1; at = chain[at]) {
            if (at < 0 || (size_t)at >= n || left == 0 || states[at] == 0 || bucket[at] != b) return false;
            left--;
            for (int32_t k = heads[b]; k != at; k = chain[k])
                if (same_name(names + NAME_WORDS * (size_t)k, names + NAME_WORDS * (size_t)at)) return false;
        }
    return left == 0;
}

/* whether each word counts the holders whose private count is not 0; a sum as wide as a count, so that no count is widened */
static bool counts_ok(const uint16_t *counts, const uint32_t *states, size_t n)
{
    for (size_t i = 0; i < n; i++) {
        uint16_t holders = 0;
        for (size_t h = 0; h < HOLDERS; h++) holders += counts[HOLDERS * i + h] != 0;
        if ((states[i] & PINS) != holders) return false;
    }
    return true;
}

uint32_t plain_check(const uint64_t *control, size_t control_len, const uint32_t *states, size_t n, const uint32_t *names,
                     size_t names_len, const uint8_t *pool, size_t pool_len, const int32_t *free, size_t free_len,
                     const int32_t *heads, size_t buckets, const int32_t *chain, size_t chain_len, const uint32_t *rows,
                     size_t rows_len, const uint8_t *store, size_t store_len, const uint16_t *counts, size_t counts_len,
                     const uint64_t *answer, size_t answer_len)
{
    size_t files = rows_len / ROW_WORDS, used = 0;
    uint32_t hashes[MOST_FILES];
    uint8_t guesses[SLOTS] = {0};
    uint16_t bucket[MOST_BUFFERS];
    uint64_t blocks;
    (void)store;
    (void)answer;

    if (answer_len != ANSWER_WORDS || control_len != CONTROL_WORDS || !size_ok(control[CONTROL_SIZE])) return 1;
    if (n == 0 || n > MOST_BUFFERS || buckets < n || buckets > MOST_BUCKETS) return 1;
    if (names_len != NAME_WORDS * n || pool_len != n * control[CONTROL_SIZE] || free_len != n || chain_len != n) return 1;
    if (counts_len != HOLDERS * n) return 1;
    if (rows_len % ROW_WORDS != 0 || !rows_ok(rows, files, &blocks) || store_len != blocks * control[CONTROL_SIZE]) return 1;

    uint64_t cap = control[CONTROL_CAP];
    if (cap < LEAST_CAP || cap > MOST_CAP || control[CONTROL_HAND] >= n || control[CONTROL_FLUSHED] > control[CONTROL_INSERTED]) return 2;
    hash_files(rows, files, hashes, guesses);
    for (size_t i = 0; i < n; i++) {
        const uint32_t *name = names + NAME_WORDS * i;
        if (states[i] == 0) {
            if (!empty_ok(name, chain[i])) return 2;
            continue;
        }
        if (free[i] != -2 || !word_ok(cap, states[i], pool + i * control[CONTROL_SIZE], control[CONTROL_INSERTED])) return 2;
        size_t r = find_row(rows, files, guesses[slot_of(name)], name);
        if (r == files || name[NAME_BLOCK] >= rows[ROW_WORDS * r + ROW_BLOCKS]) return 2;
        bucket[i] = (uint16_t)(mix(hashes[r], name[NAME_BLOCK]) % (uint32_t)buckets);
        used++;
    }
    uint64_t top = control[CONTROL_TOP];
    if (!list_ok(top == UINT64_MAX ? -1 : top > INT32_MAX ? -3 : (int32_t)top, free, n, n - used)) return 2;
    if (!chains_ok(heads, buckets, chain, states, names, n, bucket, used)) return 2;
    return counts_ok(counts, states, n) ? 0 : 2;
}
