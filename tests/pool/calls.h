/* Makes a call on the memory and on the request's own bytes, and gives its result. */
#ifndef CALLS_H
#define CALLS_H

#include "memory.h"
#include "request.h"

uint32_t made_call(struct memory *m, const struct request *q);

#endif
