/* How often each refusal, and what makes the comparison say something, came up. */
#ifndef TALLY_H
#define TALLY_H

#include "pools.h"

void tally_list(const struct sizes *sizes, uint64_t position);

/* A call that both pools are to be asked; and its receipts, up to the smaller pool's 6. */
void tally_before(const struct asked *a);
void tally_call(const struct asked *a, const struct receipt *got);

/* The receipts were compared, and are the same. */
void tally_compared(const struct sizes *sizes);

/* The list is at its end. */
void tally_end(const struct receipt *got);

unsigned long tally_calls(void);
void tally_print(void);

#endif
