/* The cases that the benchmark of the calls times: for each a state of the pool, and a call that is accepted in it. */
#ifndef CASES_H
#define CASES_H

#include "bufpool.h"
#include "shapes.h"

/* The calls of one side: the library, or plain C. */
struct side {
    __typeof__(bufpool_set_up) *set_up;
    __typeof__(bufpool_pin) *pin;
    __typeof__(bufpool_unpin) *unpin;
    __typeof__(bufpool_read) *read;
    __typeof__(bufpool_write) *write;
    __typeof__(bufpool_flush) *flush;
    __typeof__(bufpool_give_back) *give_back;
    __typeof__(bufpool_checkpoint) *checkpoint;
    __typeof__(bufpool_peek) *peek;
    __typeof__(bufpool_extend) *extend;
    __typeof__(bufpool_drop) *drop;
    __typeof__(bufpool_log_inserted) *log_inserted;
    __typeof__(bufpool_log_flushed) *log_flushed;
};

/* A pool, and what it is set back to. */
struct pool {
    struct bufpool lent, kept;
    size_t files, turn;      /* turn: how often it was set back */
    uint32_t *held;          /* the buffers in use, rising */
    size_t held_count, hand; /* hand: the place in held where the hand stands */
    uint32_t *others;        /* names of pages that are not held, three for each buffer */
    size_t span, places;     /* bytes to read or write, and how many places in a page they come from, a power of two */
    uint64_t answer[BUFPOOL_ANSWER_WORDS];
};

/* Which buffers are dirty: none, the quarter of those in use that begins at the hand, or the quarter behind that one. */
enum dirty { CLEAN_POOL, DIRTY_HAND, DIRTY_NEXT };

/* How many calls are made before the pool is set back. */
enum batch { ONE, FOR_EACH_FILE, QUARTER, ANY_NUMBER };

/* A call that moves no page, one that sums a page up for its checksum, or another. Reads and writes move no page if they are of few
   bytes. */
enum kind { OTHER, STILL, SUMMED };

/* As many bytes as a call may read or write of a page. */
enum { WHOLE = 32768 };

/* The kth call of a batch. */
typedef uint32_t call_fn(const struct side *side, struct pool *pool, size_t k);

struct bench_case {
    const char *name;
    call_fn *call;
    enum kind kind;
    uint32_t usage; /* of every buffer in use */
    uint16_t count; /* of holder 0, the same: its private count */
    enum dirty dirty;
    enum batch batch;
    size_t span;   /* of a read or write */
    int empty;     /* no page is held */
    int zeros;     /* the store's blocks are zeros, as after an extend: they are looked through, not summed up */
    int no_books;  /* the call does not check the books */
    int all_sizes; /* timed with other block sizes too */
};

extern const struct bench_case bench_cases[];
extern const size_t bench_case_count;

/* A new pool of a shape. If pages are moved there is memory behind all of the store. */
void pool_new(struct pool *pool, const struct bench_shape *shape, int pages_move);

/* The store of a case: every block below its file's count is zeros, or has bytes and their checksum. */
void pool_fill_store(struct pool *pool, const struct bench_case *c);

/* The state of a case, with the hand a quarter further each time. */
void pool_set_back(struct pool *pool, const struct bench_case *c);

size_t batch_of(const struct pool *pool, const struct bench_case *c);

#endif
