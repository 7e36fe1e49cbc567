/* The trail: a file of snapshots (bufpool_show.h), one for what the till did in one or two calls. bufpool-show prints it. Nothing is done
   where the till keeps no trail. */
#ifndef TRAIL_H
#define TRAIL_H

#include <stdio.h>

#include "bufpool.h"

struct shop;

FILE *trail_new(const char *path);
void trail_note(struct shop *shop, const char *format, ...);
void trail_call(struct shop *shop, const char *text, uint32_t refusal);
void trail_pin(struct shop *shop, const char *who, struct bufpool_name name, uint32_t refusal, const struct bufpool_pinned *pinned);

/* The last snapshot: who watches the trail need not wait for another. */
void trail_end(struct shop *shop);

#endif
