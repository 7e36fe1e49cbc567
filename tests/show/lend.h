/* Pools over memory of its own for each slice, exactly as long as the slice, so that the address sanitizer sees a read beyond it. */
#ifndef LEND_H
#define LEND_H

#include "bufpool_show.h"

extern const struct bufpool_file table_file, map_file;

/* Set up with these sizes, this cap and both files, of so many blocks each. */
struct bufpool lend(uint32_t buffers, uint32_t buckets, uint32_t blocks, uint64_t cap);
void give_back(struct bufpool *m);

/* A slice with another length, and memory that ends there; what fits of it is kept. */
void *other_length(void *slice, size_t size, uint64_t from, uint64_t to);

/* Ends the program with status 2 unless it holds. */
void see(int holds, const char *what);

#endif
