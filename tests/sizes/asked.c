#include "asked.h"
#include <string.h>

struct request resolved(const struct asked *a, const struct pins *p)
{
    struct request q = {.call = a->call, .holder = a->holder, .from = a->from, .position = a->position, .own_len = a->own_len};
    memcpy(q.name, a->name, sizeof q.name);
    if (ON_BUFFER(a->call)) q.buffer = p->at[a->pin].number;
    return q;
}

bool is_permitted(const struct asked *a, const struct pins *p)
{
    if (!ON_BUFFER(a->call)) return true;
    return a->pin < p->made && p->at[a->pin].is_open && p->at[a->pin].holder == a->holder;
}

static void close_pin(struct pins *p, size_t k)
{
    p->open -= p->at[k].is_open;
    p->at[k].is_open = false;
}

static void close_all(struct pins *p, uint64_t holder)
{
    for (size_t k = 0; k < p->made; k++)
        if (p->at[k].is_open && p->at[k].holder == holder) close_pin(p, k);
}

void pins_enter(struct pins *p, const struct asked *a, uint32_t result, uint64_t number)
{
    struct pin *now = &p->at[p->made];
    bool is_pin = result == 0 && a->call == PIN;
    *now = (struct pin){.is_accepted = is_pin, .is_open = is_pin, .number = is_pin ? number : 0, .holder = a->holder};
    memcpy(now->name, a->name, sizeof now->name);
    p->open += is_pin;
    p->made++;
    if (result == 0 && a->call == UNPIN) close_pin(p, a->pin);
    if (result == 0 && a->call == GIVE_BACK) close_all(p, a->holder);
}
