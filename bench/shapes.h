/* Shapes of pool that the benchmarks have beside those of tests/books/memory.h. */
#ifndef SHAPES_H
#define SHAPES_H

#include "memory.h"

struct bench_shape {
    struct shape is;
    const char *words; /* what is special about it */
    uint32_t apart;    /* relation numbers of neighbours are so far apart; 0: as memory_fill has them */
    int crowded;       /* one file, whose blocks are chosen so that as few buckets as possible have all names */
};

/* Pools on which a check may take another time than on the two that are usual: few and many buffers and files, relation numbers that
   fall together in a table of guesses by their low bits, a division that is no mask, few buffers in use, and long chains. */
extern const struct bench_shape other_shapes[];
extern const size_t other_shape_count;

/* New memory with a sound pool of a shape. */
void shape_new(struct memory *m, const struct bench_shape *s);

/* N, B, F and P, without a line's end. */
void shape_print(const struct bench_shape *s);

#endif
