/* Lent memory for tests and benchmarks: a sound one, made from random numbers, and the same with something wrong in it. */
#ifndef MEMORY_H
#define MEMORY_H

#include "../layout.h"
#include <stddef.h>
#include <stdint.h>

struct memory {
    uint64_t *control, *answer;
    uint32_t *states, *names, *rows;
    int32_t *free, *heads, *chain;
    uint8_t *pool, *store;
    uint16_t *counts;
    size_t control_len, answer_len, states_len, names_len, rows_len, free_len, heads_len, chain_len, pool_len, store_len, counts_len;
};

/* Room for a control record that is too long, in words. */
#define MOST_CONTROL (CONTROL_WORDS + 3)

struct shape {
    size_t buffers, buckets, files, page; /* N, B, F, P */
    size_t capacity;                      /* of each file, in blocks */
    unsigned used, dirty;                 /* of a hundred buffers, so many are in use; of those, so many are dirty */
    int runs;                             /* neighbouring buffers hold neighbouring blocks of one file */
    int relations;                        /* each file has a relation number of its own, else six files share two */
    uint64_t log;                         /* where the log's positions begin */
    uint32_t cap;                         /* the greatest usage count */
};

/* Every argument of a check, in the order in which memory is lent. */
#define LENT(m)                                                                                                          \
    (m)->control, (m)->control_len, (m)->states, (m)->states_len, (m)->names, (m)->names_len, (m)->pool, (m)->pool_len, \
        (m)->free, (m)->free_len, (m)->heads, (m)->heads_len, (m)->chain, (m)->chain_len, (m)->rows, (m)->rows_len,     \
        (m)->store, (m)->store_len, (m)->counts, (m)->counts_len, (m)->answer, (m)->answer_len

typedef uint32_t check_fn(const uint64_t *, size_t, const uint32_t *, size_t, const uint32_t *, size_t, const uint8_t *, size_t,
                          const int32_t *, size_t, const int32_t *, size_t, const int32_t *, size_t, const uint32_t *, size_t,
                          const uint8_t *, size_t, const uint16_t *, size_t, const uint64_t *, size_t);

void seed_random(uint64_t seed);
uint32_t random_below(uint32_t n);

/* A cap that is permitted, mostly one at the edges or the bench's; and one that is not: beyond an edge, or permitted in its low bits. */
uint32_t some_cap(void);
uint64_t bad_cap(void);

/* A private count that is not 0: mostly a small one, now and then the greatest, or one with zeros for its low bits. */
uint16_t some_count(void);

/* The hash of a page name. */
uint32_t name_hash(const uint32_t *name);

/* Memory for pools of at most this shape. Each slice ends where a page begins that cannot be read. */
void memory_new(struct memory *m, const struct shape *most);

/* Fills it with a pool of a shape, sound if the shape is permitted. */
void memory_fill(struct memory *m, const struct shape *s);

/* Whether the slices can be written to. */
void memory_guard(int writable);

/* A small pool's shape; one in 16 has a block size, or a number of buffers or buckets, that is not permitted. */
struct shape memory_shape(void);

/* The number of kinds of damage, and one of them done: it may leave the memory sound. After the last kind, which changes a length, no
   other is done. */
#define DAMAGES 40
void memory_damage(struct memory *m, unsigned kind);

/* Nothing done, one kind or, now and then, two. */
void memory_damages(struct memory *m);

#endif
