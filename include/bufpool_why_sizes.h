/* Section 3 of docs/RULES.md for bufpool_why.h, which includes this page: the rules of sizes, and what both sections look and say with. */
#ifndef BUFPOOL_WHY_SIZES_H
#define BUFPOOL_WHY_SIZES_H

#include <stdarg.h>
#include <stdio.h>
#include <string.h>

#include "bufpool.h"

#ifdef __cplusplus
extern "C" {
#endif

/* Room for every message, in bytes. */
#define BUFPOOL_WHY_BYTES 160

/* A number in a message. */
typedef unsigned long long bufpool_why_number;

/* What is looked at, and where the words go. */
struct bufpool_why_look {
    const struct bufpool *m;
    bufpool_why_number n, p; /* N; P, of the control record or as set up is given it */
    char *words;
    size_t words_len;
};

/* A rule for the row, buffer or bucket i. Results in BUFPOOL_DONE where it is kept; else in its refusal, and has said what breaks it. */
typedef uint32_t bufpool_why_rule(const struct bufpool_why_look *l, bufpool_why_number i);

/* Writes words, and results in the refusal that they are for. */
#ifdef __GNUC__
__attribute__((format(printf, 3, 4)))
#endif
BUFPOOL_INLINE uint32_t bufpool_why_say(const struct bufpool_why_look *l, uint32_t refusal, const char *format, ...)
{
    va_list numbers;
    va_start(numbers, format);
    if (l->words_len > 0 && vsnprintf(l->words, l->words_len, format, numbers) < 0) l->words[0] = 0;
    va_end(numbers);
    return refusal;
}

/* A rule for each i below a number: the first that breaks it. */
BUFPOOL_INLINE uint32_t bufpool_why_each(const struct bufpool_why_look *l, bufpool_why_rule *rule, bufpool_why_number below)
{
    uint32_t refusal = BUFPOOL_DONE;
    bufpool_why_number i;
    for (i = 0; i < below && refusal == BUFPOOL_DONE; i++) refusal = rule(l, i);
    return refusal;
}

/* A null pointer has no rule's number: the library cannot see it, and takes each slice for as long as its length says. A slice of no
   elements has a pointer too. */
BUFPOOL_INLINE uint32_t bufpool_why_pointers(const struct bufpool_why_look *l)
{
    const struct bufpool *m = l->m;
    const char *slice = m->control == NULL ? "control" : m->states == NULL ? "states" : m->names == NULL ? "names"
                      : m->pool == NULL    ? "pool"    : m->free == NULL   ? "free"   : m->heads == NULL ? "heads"
                      : m->chain == NULL   ? "chain"   : m->rows == NULL   ? "rows"   : m->store == NULL ? "store"
                      : m->counts == NULL  ? "counts"  : NULL;
    return slice == NULL ? BUFPOOL_DONE : bufpool_why_say(l, BUFPOOL_SIZES, "the slice %s is a null pointer", slice);
}

/* ---- Rows and names ---- */

/* A file's four numbers, for "file %u %u %u %u": a row begins with them, and a name. */
#define BUFPOOL_WHY_FILE(words)                                                                                                \
    (words)[BUFPOOL_FILE_AT_TABLESPACE], (words)[BUFPOOL_FILE_AT_DATABASE], (words)[BUFPOOL_FILE_AT_RELATION], (words)[BUFPOOL_FILE_AT_FORK]

BUFPOOL_INLINE const uint32_t *bufpool_why_row(const struct bufpool *m, bufpool_why_number i) { return m->rows + BUFPOOL_ROW_WORDS * i; }
BUFPOOL_INLINE const uint32_t *bufpool_why_name(const struct bufpool *m, bufpool_why_number i) { return m->names + BUFPOOL_NAME_WORDS * i; }

/* The row of the file that these words begin with: of rows with equal numbers the first. A null pointer if there is none. */
BUFPOOL_INLINE const uint32_t *bufpool_why_row_for(const struct bufpool *m, const uint32_t *words)
{
    const struct bufpool_file file = {BUFPOOL_WHY_FILE(words)};
    return bufpool_row_of(m, file);
}

BUFPOOL_INLINE int bufpool_why_same_name(const uint32_t *a, const uint32_t *b) { return memcmp(a, b, BUFPOOL_NAME_WORDS * sizeof *a) == 0; }

/* 32-bit FNV-1a over a name's 20 bytes, the low byte of a word first. */
BUFPOOL_INLINE uint32_t bufpool_why_hash(const uint32_t *name)
{
    uint32_t hash = 2166136261u;
    size_t k;
    for (k = 0; k < 4 * BUFPOOL_NAME_WORDS; k++) hash = (hash ^ (name[k / 4] >> 8 * (k % 4) & 255)) * 16777619u;
    return hash;
}

BUFPOOL_INLINE bufpool_why_number bufpool_why_bucket(const struct bufpool *m, bufpool_why_number i)
{
    return bufpool_why_hash(bufpool_why_name(m, i)) % m->heads_len;
}

BUFPOOL_INLINE bufpool_why_number bufpool_why_capacities(const struct bufpool *m)
{
    bufpool_why_number sum = 0, i;
    for (i = 0; i < m->rows_len / BUFPOOL_ROW_WORDS; i++) sum += bufpool_why_row(m, i)[BUFPOOL_ROW_AT_CAPACITY];
    return sum;
}

/* ---- 3, sizes ---- */

/* Rules 3.1 to 3.3: P and N. */
BUFPOOL_INLINE uint32_t bufpool_why_p_and_n(const struct bufpool_why_look *l)
{
    const bufpool_why_number control = l->m->control_len, p = l->p;
    if (control != BUFPOOL_CONTROL_WORDS)
        return bufpool_why_say(l, BUFPOOL_SIZES, "rule 3.1: the control record has %llu words, not 6", control);
    if (p != 1024 && p != 2048 && p != 4096 && p != 8192 && p != 16384 && p != 32768)
        return bufpool_why_say(l, BUFPOOL_SIZES, "rule 3.2: the block size is %llu, not 1024, 2048, 4096, 8192, 16384 or 32768%s", p,
                               p == 0 ? "; was it set up?" : "");
    if (l->n < 1 || l->n > BUFPOOL_MAX_BUFFERS)
        return bufpool_why_say(l, BUFPOOL_SIZES, "rule 3.3: there are %llu state words, not 1 to 1024", l->n);
    return BUFPOOL_DONE;
}

/* Rules 3.4 to 3.7: what goes with P and N. */
BUFPOOL_INLINE uint32_t bufpool_why_lengths(const struct bufpool_why_look *l)
{
    const bufpool_why_number names = l->m->names_len, pool = l->m->pool_len, n = l->n;
    const bufpool_why_number free_links = l->m->free_len, chain_links = l->m->chain_len, heads = l->m->heads_len;
    if (names != BUFPOOL_NAME_WORDS * n)
        return bufpool_why_say(l, BUFPOOL_SIZES, "rule 3.4: there are %llu words of names, not 5 for each of %llu buffers", names, n);
    if (pool != n * l->p)
        return bufpool_why_say(l, BUFPOOL_SIZES, "rule 3.5: the pool has %llu bytes, not %llu for each of %llu buffers", pool, l->p, n);
    if (free_links != n)
        return bufpool_why_say(l, BUFPOOL_SIZES, "rule 3.6: there are %llu free links, not one for each of %llu buffers", free_links, n);
    if (chain_links != n)
        return bufpool_why_say(l, BUFPOOL_SIZES, "rule 3.6: there are %llu chain links, not one for each of %llu buffers", chain_links, n);
    if (heads < n || heads > BUFPOOL_MAX_BUCKETS)
        return bufpool_why_say(l, BUFPOOL_SIZES, "rule 3.7: there are %llu heads for %llu buffers, not %llu to 4096", heads, n, n);
    return BUFPOOL_DONE;
}

BUFPOOL_INLINE uint32_t bufpool_why_3_8(const struct bufpool_why_look *l)
{
    const bufpool_why_number words = l->m->rows_len, files = words / BUFPOOL_ROW_WORDS;
    if (words % BUFPOOL_ROW_WORDS != 0)
        return bufpool_why_say(l, BUFPOOL_SIZES, "rule 3.8: there are %llu words of rows, not 6 for each row", words);
    if (files > BUFPOOL_MAX_FILES)
        return bufpool_why_say(l, BUFPOOL_SIZES, "rule 3.8: there are %llu rows, not 0 to 64", files);
    return BUFPOOL_DONE;
}

BUFPOOL_INLINE uint32_t bufpool_why_3_9(const struct bufpool_why_look *l, bufpool_why_number i)
{
    const uint32_t fork = bufpool_why_row(l->m, i)[BUFPOOL_FILE_AT_FORK];
    return fork <= 2 ? BUFPOOL_DONE : bufpool_why_say(l, BUFPOOL_SIZES, "rule 3.9: row %llu has fork %u, not 0, 1 or 2", i, fork);
}

BUFPOOL_INLINE uint32_t bufpool_why_3_10(const struct bufpool_why_look *l, bufpool_why_number i)
{
    const uint32_t *row = bufpool_why_row(l->m, i), blocks = row[BUFPOOL_ROW_AT_BLOCKS], capacity = row[BUFPOOL_ROW_AT_CAPACITY];
    if (blocks <= capacity) return BUFPOOL_DONE;
    return bufpool_why_say(l, BUFPOOL_SIZES, "rule 3.10: row %llu has %u blocks, and its capacity is %u", i, blocks, capacity);
}

BUFPOOL_INLINE uint32_t bufpool_why_3_11(const struct bufpool_why_look *l, bufpool_why_number i)
{
    const uint32_t *row = bufpool_why_row(l->m, i), *first = bufpool_why_row_for(l->m, row);
    const bufpool_why_number other = (bufpool_why_number)(first - l->m->rows) / BUFPOOL_ROW_WORDS;
    if (first == row) return BUFPOOL_DONE;
    return bufpool_why_say(l, BUFPOOL_SIZES, "rule 3.11: the rows %llu and %llu both have file %u %u %u %u", other, i,
                           BUFPOOL_WHY_FILE(row));
}

/* Rules 3.12 to 3.14: the slices behind the rows. */
BUFPOOL_INLINE uint32_t bufpool_why_store(const struct bufpool_why_look *l)
{
    const bufpool_why_number blocks = bufpool_why_capacities(l->m), bytes = l->m->store_len, counts = l->m->counts_len, p = l->p;
    if (blocks > BUFPOOL_MAX_BLOCKS)
        return bufpool_why_say(l, BUFPOOL_SIZES, "rule 3.12: the capacities sum to %llu, which is above 65536", blocks);
    if (bytes != blocks * p)
        return bufpool_why_say(l, BUFPOOL_SIZES, "rule 3.13: the store has %llu bytes, not %llu for each of %llu blocks", bytes, p, blocks);
    if (counts != BUFPOOL_MAX_HOLDERS * l->n)
        return bufpool_why_say(l, BUFPOOL_SIZES, "rule 3.14: there are %llu private counts, not 64 for each of %llu buffers", counts, l->n);
    return BUFPOOL_DONE;
}

BUFPOOL_INLINE uint32_t bufpool_why_sizes(const struct bufpool_why_look *l)
{
    const bufpool_why_number files = l->m->rows_len / BUFPOOL_ROW_WORDS;
    uint32_t refusal = bufpool_why_p_and_n(l);
    if (refusal == BUFPOOL_DONE) refusal = bufpool_why_lengths(l);
    if (refusal == BUFPOOL_DONE) refusal = bufpool_why_3_8(l);
    if (refusal == BUFPOOL_DONE) refusal = bufpool_why_each(l, bufpool_why_3_9, files);
    if (refusal == BUFPOOL_DONE) refusal = bufpool_why_each(l, bufpool_why_3_10, files);
    if (refusal == BUFPOOL_DONE) refusal = bufpool_why_each(l, bufpool_why_3_11, files);
    if (refusal == BUFPOOL_DONE) refusal = bufpool_why_store(l);
    return refusal;
}

#ifdef __cplusplus
}
#endif

#endif
