/* In the library's place: the model with a slip, so that it is seen which slips are noticed by the shelf alone, or with ALONE=ISOLATION
   by isolation alone. */
#include "lent.h"

uint32_t slipped_call(struct memory *m, const struct request *q);

unsigned touch_way, touch_part;
#ifndef ALONE
#define ALONE SHELF
#endif
const enum judges judges = ALONE;

uint32_t library_call(const struct request *q)
{
    struct memory m = library_memory();
    struct request own = *q;
    own.own = lent_part(q->call, OWN);
    return slipped_call(&m, &own);
}
