/* Sizes of two pools, and lists of calls, from random numbers. */
#ifndef CHOICE_H
#define CHOICE_H

#include "pools.h"

/* The smaller pool first. One block size and the same files; buffers, buckets and caps are each pool's own. */
void some_two_sizes(struct sizes *sizes);

/* Two pools of 1,000 to 1,024 buffers. */
void two_great_sizes(struct sizes *sizes);

/* A list begins. Its next call is chosen by the smaller pool's memory and answers. A call on a buffer names an open pin of its holder; all
   others may be anything. */
void choice_begin(void);
void some_asked(struct asked *a);

/* The pin of the next page, from file to file: so a great pool is filled. */
void next_pin(struct asked *a);

#endif
