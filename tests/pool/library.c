/* The library is asked a request on its own memory. */
#include "calls.h"
#include "lent.h"

/* The memory as a call is lent it. */
static struct memory lend(enum call c)
{
    struct memory m = twin;
    m.control = lent_part(c, CONTROL);
    m.states = lent_part(c, STATES);
    m.names = lent_part(c, NAMES);
    m.pool = lent_part(c, POOL);
    m.free = lent_part(c, FREE);
    m.heads = lent_part(c, HEADS);
    m.chain = lent_part(c, CHAIN);
    m.rows = lent_part(c, ROWS);
    m.store = lent_part(c, STORE);
    m.counts = lent_part(c, COUNTS);
    m.answer = lent_part(c, ANSWER);
    return m;
}

unsigned touch_way, touch_part;
const enum judges judges = EVERY;

/* What a wrong library could do: 1 reads behind the end of a slice, 2 reads before its beginning, 3 writes to it. */
static void touch(const struct request *q)
{
    enum part k = (enum part)touch_part;
    volatile uint8_t *at = lent_part(q->call, k);
    size_t bytes = part_length(k, q) * part_sizes[k];
    if (touch_way == 1) (void)at[bytes];
    if (touch_way == 2) (void)*(at - 1);
    if (touch_way == 3 && bytes > 0) *at = *at;
}

uint32_t library_call(const struct request *q)
{
    struct memory m = lend(q->call);
    struct request own = *q;
    own.own = lent_part(q->call, OWN);
    if (touch_way != 0) touch(q);
    return made_call(&m, &own);
}
