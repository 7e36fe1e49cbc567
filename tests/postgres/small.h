/* A small pool with pages of PostgreSQL's size, over one file, or with pages of any size, over two, set up with the default cap; and random
   numbers. */
#ifndef SMALL_H
#define SMALL_H

#include "bufpool.h"

enum { PAGE = 8192, MOST_BUFFERS = 8, MOST_BLOCKS = 256, SMALL_FILES = 2 };

extern const struct bufpool_file small_file[SMALL_FILES];
extern uint8_t small_store[MOST_BLOCKS * PAGE];

/* Who pins where it does not matter who does. */
extern const struct bufpool_holder till;

/* Empty, of so many buffers over so many blocks; the store is as it was. Ends the program if the set up is refused. */
struct bufpool *small_pool(size_t buffers, uint32_t blocks, uint64_t position);

struct bufpool_name small_name(uint32_t block);

/* Files of so many blocks each in the store, of which the last so many are not in use yet. */
struct bufpool *small_files(size_t page, size_t buffers, const uint32_t capacities[SMALL_FILES], uint32_t unused, uint64_t position);

/* Ends the program, with a line that says what is not as expected and for which number, unless it holds. */
void need(int holds, const char *what, uint64_t number);

uint64_t random64(void);
uint32_t random_below(uint32_t n);

#endif
