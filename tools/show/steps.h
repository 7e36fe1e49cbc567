/* What is printed of a step: a snapshot beside the one before it of the same pool, or none if it is the pool's first. */
#ifndef STEPS_H
#define STEPS_H

#include "dump.h"

/* Whether the step is a pin that had to sweep. */
int step_swept(const struct snapshot *s);

/* The sweep's probes, from the states before the pin: a pinned buffer is passed, one with usage loses 1, one without is taken. Of a long
   sweep the middle is left out, unless all is asked for. */
void print_sweep(const struct snapshot *before, const struct snapshot *s, int all);

/* Whether the step's sweep took this buffer, and from the page that it has in the snapshot before. */
int step_took(const struct snapshot *before, const struct snapshot *s, uint64_t b);

/* What happened, the sweep, what changed; the whole pool too if it is asked for, or if there is nothing to compare with. Last, why the pool
   is not sound: beside the whole pool, or if told, what was said of the pool at its step before that was shown, is another reason. */
void print_step(const struct snapshot *before, const struct snapshot *s, int full, char told[BUFPOOL_WHY_BYTES]);

#endif
