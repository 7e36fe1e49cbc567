/* A list of calls for pools of any size: a call on a buffer names the pin that it means by the pin's index in the list, all calls counted
   from 0. It has no buffer numbers: each pool has its own. */
#ifndef ASKED_H
#define ASKED_H

#include "request.h"
#include <stdbool.h>

struct asked {
    enum call call;
    uint32_t name[NAME_WORDS]; /* pin, peek; of an extend and a drop the file's words */
    uint64_t holder;           /* pin, unpin, read, write, flush, give back */
    size_t pin;                /* unpin, read, write, flush: the index in the list */
    uint64_t from;             /* read, write */
    uint64_t position;         /* write, log inserted, log flushed */
    size_t own_len;            /* the caller's own bytes, a read's out or a write's: so many of twin_own */
};

/* Whether a call is on a buffer. */
#define ON_BUFFER(call) ((call) >= UNPIN && (call) <= FLUSH)

/* What a pool has answered to a list up to now: the number of each pin, which is open from its acceptance until an accepted unpin names it,
   or its holder's give back is accepted. */
#define MOST_LIST 70000
struct pins {
    size_t made, open; /* calls made; pins that are open */
    struct pin {
        bool is_accepted, is_open; /* accepted: as a pin */
        uint64_t number, holder;
        uint32_t name[NAME_WORDS];
    } at[MOST_LIST];
};

/* The call as a pool is asked it, with the number that it answered to the pin. */
struct request resolved(const struct asked *a, const struct pins *p);

/* Whether a call on a buffer names an open pin of its own holder. All other calls are permitted. */
bool is_permitted(const struct asked *a, const struct pins *p);

/* The call was made, with this result, and with this number if it is a pin. */
void pins_enter(struct pins *p, const struct asked *a, uint32_t result, uint64_t number);

#endif
