/* The two functions of bufpool_why.h in an object of their own, so that the same programs are linked with slips of it. */
#ifndef WHY_H
#define WHY_H

#include "bufpool.h"

uint32_t why(const struct bufpool *m, char *words, size_t words_len);
uint32_t why_set_up(const struct bufpool *m, uint64_t page_size, uint64_t cap, char *words, size_t words_len);

/* Room for every message. */
extern const size_t why_bytes;

#endif
