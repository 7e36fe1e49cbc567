/* The plain shelf of document 01, written from that section alone. It follows a list of calls after a set up and holds what the library
   did against its rules. SHELF_SLIP changes one rule, so that it is seen that the comparison notices it. */
#ifndef SHELF_H
#define SHELF_H

#include "memory.h"
#include "request.h"

/* Begins with the memory after an accepted set up with this block size, log position and cap. Stores larger than this many bytes are not
   followed. */
#define MOST_SHELF ((size_t)8 << 20)
void shelf_begin(const struct memory *m, uint64_t page_size, uint64_t position, uint64_t cap);

/* The call made, with its result, and the memory and the call's own bytes afterwards. Gives a null pointer, or the sentence that does
   not hold. */
const char *shelf_follow(const struct request *q, const uint8_t *own, uint32_t result, const struct memory *after);

#endif
