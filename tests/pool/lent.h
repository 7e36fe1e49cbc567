/* Two lots of the same lent memory: the model's, plain, and the library's, between pages that cannot be touched. The library's is mapped
   twice, and a slice that a call promises not to change is lent in the mapping that cannot be written to. */
#ifndef LENT_H
#define LENT_H

#include "memory.h"
#include "request.h"

enum part { CONTROL, STATES, NAMES, POOL, FREE, HEADS, CHAIN, ROWS, STORE, COUNTS, ANSWER, OWN, PARTS };

extern const char *const part_names[PARTS];
extern const size_t part_sizes[PARTS]; /* of an element, in bytes */

/* Room that a slice has at the most, in bytes. */
#define MOST_POOL ((size_t)4 << 20)
#define MOST_STORE ((size_t)65540 << 10)
#define MOST_OWN ((size_t)40000)

/* The model's memory; its pointers never change, its lengths do. own is a call's own slice. */
extern struct memory twin;
extern uint8_t *twin_own;

void lent_new(void);

/* The library has memory for two pools, of which tests/pool has one, the first. What follows is about the one that was chosen last. */
enum { LENT_POOLS = 2 };
void lent_pool(unsigned k);

/* How many elements a part has; of a call's own slice, what the request says. */
size_t part_length(enum part k, const struct request *q);

/* Copies the twin's memory, with its lengths, to the library's; each slice ends, or begins, at a page that cannot be touched. */
void lent_copy(void);
void lent_copy_part(enum part k, size_t elements, int at_end);

/* Where a part is lent to a call: in the mapping that cannot be written to if the call does not change it. */
void *lent_part(enum call call, enum part k);

/* Asks the library the request on its memory. */
uint32_t library_call(const struct request *q);

/* What judges the calls: the model, the shelf and isolation, or one of the last two alone. Then the twin takes over what the library
   left. */
enum judges { EVERY, SHELF, ISOLATION };
extern const enum judges judges;
void twin_copy(void);

/* To see that a wrong touch of a part is noticed: the way, 0 for none, and the part. */
extern unsigned touch_way, touch_part;

/* The library's memory, and a part of it and of the twin's, after a call. */
struct memory library_memory(void);
const void *library_part(enum part k);
const void *twin_part(enum part k);

#endif
