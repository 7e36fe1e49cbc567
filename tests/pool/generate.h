/* What the calls are tried on, from random numbers: sizes and rows, memory before a set up, sound memory built directly, damaged memory,
   and requests. All of it is made in the twin. */
#ifndef GENERATE_H
#define GENERATE_H

#include "lent.h"
#include <stdbool.h>

#define MOST_ROWS 65

struct sizes {
    size_t n, buckets, page_size, files;
    uint32_t blocks[MOST_ROWS], capacity[MOST_ROWS], cap;
    bool all_pass; /* no block below its file's count is bad */
};

uint64_t random64(void);
void random_fill(void *at, size_t bytes);

/* So much below, at least 0; so much above, at most 2^64 - 1. */
uint64_t below(uint64_t position, uint64_t by);
uint64_t above(uint64_t position, uint64_t by);

/* A log position: small, around 2^32, or near the greatest. */
uint64_t some_log(void);

/* Small pools, now and then a middling one; and pools at the greatest sizes, just below all of them, or beyond one of them. */
#define GREAT_KINDS 6
struct sizes some_sizes(void);
struct sizes great_sizes(unsigned kind);

/* Lengths, rows and store for these sizes; all else has any contents, as before a set up. About one of 16 blocks below their files'
   counts is bad, and nearly all above. */
void fill_unset(const struct sizes *s, uint64_t log);

/* The same but for rows and store, which stay as they are. */
void fill_others(const struct sizes *s);

/* Sound memory: any pins, usage counts, dirty pages, orders of lists, hand and positions that the rules allow. */
void fill_sound(const struct sizes *s);

/* A page with its checksum gets one that is not its own, or other bytes. */
void spoil_block(uint8_t *page, size_t size, uint32_t block);

/* One thing changed in sound memory. It may leave the memory sound. */
void some_damage(void);

/* The weights of the calls in the requests to come: those of a list, or all calls alike, set up too. */
void new_mood(void);
void even_mood(void);
void some_request(struct request *q);

/* Of them: the next call, by weight; a request of a call; and of a call on this buffer. */
enum call some_call(void);
void request_of(struct request *q, enum call call);
void request_on(struct request *q, enum call call, uint64_t buffer);

#endif
