#include "isolation.h"
#include <string.h>

static size_t n;
static uint32_t states[1032], names[1032 * NAME_WORDS];
static uint16_t counts[1032 * HOLDERS];

void isolation_before(void)
{
    n = twin.states_len;
    memcpy(states, twin.states, n * sizeof *states);
    memcpy(names, twin.names, n * NAME_WORDS * sizeof *names);
    memcpy(counts, twin.counts, n * HOLDERS * sizeof *counts);
}

/* whether the buffer has the page that it had */
static int has_page(size_t i, const struct memory *after)
{
    return after->states[i] != 0 && memcmp(after->names + NAME_WORDS * i, names + NAME_WORDS * i, NAME_WORDS * sizeof *names) == 0;
}

static const char *buffer_after(const struct request *q, size_t i, const struct memory *after)
{
    for (size_t h = 0; h < HOLDERS; h++) {
        size_t at = HOLDERS * i + h;
        if (counts[at] == 0 || (NAMES_HOLDER(q->call) && q->holder == h)) continue;
        if (!has_page(i, after)) return "a page stays in its buffer while another holder has a pin on it";
        if (after->counts[at] != counts[at]) return "a holder's count changes by its own calls alone";
    }
    return NULL;
}

const char *isolation_after(const struct request *q, const struct memory *after)
{
    const char *wrong = NULL;
    if (q->call == SET_UP || q->call == CHECKSUM) return NULL;
    for (size_t i = 0; i < n && wrong == NULL; i++) wrong = buffer_after(q, i, after);
    return wrong;
}
