/* The pool of document 01, written from the document for clarity: the lent words are unpacked into buffers and lists, a call works on
   these, and an accepted call packs them again. SLIP changes one rule, so that it is seen that the comparison notices it. */
#ifndef MODEL_H
#define MODEL_H

#include "memory.h"
#include "request.h"
#include <stdbool.h>

#ifndef SLIP
#define SLIP 0
#endif

#define MOST_BUFFERS 1024

struct buffer {
    bool used, dirty, just_dirtied;
    uint32_t pins, usage, name[NAME_WORDS]; /* pins: holders whose private count is not 0 */
    uint16_t counts[HOLDERS];
    uint8_t *page;
};

struct list {
    size_t many;
    size_t at[MOST_BUFFERS];
};

struct pool {
    size_t n, buckets, page_size, files;
    uint64_t hand, inserted, flushed, cap;
    struct buffer buffers[MOST_BUFFERS];
    struct list free;  /* from the top on */
    struct list table; /* the used buffers: those whose names fall in one bucket are its chain, in this order */
    uint32_t *rows;
    uint8_t *store;
};

void list_add(struct list *l, size_t i);
void list_put_first(struct list *l, size_t i);
void list_remove(struct list *l, size_t i);

/* Memory that is sound, as a pool; and back into words. Pages and store are the lent bytes themselves. */
void unpack(const struct memory *m, struct pool *p);
void pack(const struct pool *p, struct memory *m);

/* What place 1 says of the memory for a set up with blocks of this size. */
bool sizes_hold_for(const struct memory *m, uint64_t page_size);

/* Whether blocks may have this many bytes. */
bool is_page_size(uint64_t bytes);

/* Does the call on the memory and on the request's own bytes, and gives the refusal number. */
uint32_t model_call(struct memory *m, const struct request *q);

#endif
