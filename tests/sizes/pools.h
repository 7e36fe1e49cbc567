/* Two pools over copies of the same rows and store. All else that they are lent has other contents in each, and so has each answer. */
#ifndef POOLS_H
#define POOLS_H

#include "asked.h"
#include "generate.h"
#include "receipt.h"
#include <signal.h>

enum { SMALLER, LARGER, POOLS };

/* What each has answered to the list. */
extern struct pins pins[POOLS];

/* Whether a pool is at work: a fault then is its own. */
extern volatile sig_atomic_t pool_at_work;

/* Room for both. After it, and after pools_end, rows and store can be filled in the twin. */
void pools_new(void);
void pools_end(void);

/* Both are set up with blocks of one size at one position, each with its own number of buffers and buckets and its own cap: whether they
   accept. From then on the twin is the smaller pool's own memory, by which calls are chosen, and never the larger's. */
bool pools_set_up(const struct sizes *sizes, uint64_t position);

/* Asks both, and gives the receipts. */
void pools_ask(const struct asked *a, struct receipt *got);

#endif
