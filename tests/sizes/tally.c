#include "tally.h"
#include <stdio.h>
#include <string.h>

enum event {
    LISTS, LARGE_BLOCKS, ABOVE_ZERO, HIGH_POSITION, EQUAL, ONE, MOST, GREAT, GREAT_COMPARED, OTHER_BUCKETS, CAP_SMALLER, CAP_LARGER,
    BY_SIX, LATE_SIX, SIX_SERVED, SIX_BOTH, TO_THE_END, DROPPED, EXTENDED, GAVE_PINS, EARLIER_FIRST, LATER_FIRST, READ_BYTES, READ_SUM,
    PEEK_SUM, ZEROS, OTHER_NUMBER, HIT_SMALLER, HIT_LARGER, OTHER_WROTE, OTHER_PROBES, OTHER_PLACE, OTHER_FLUSHED, OTHER_WRITTEN, EVENTS
};
static const char *const event_names[EVENTS] = {
    "lists", "lists with blocks above 1024 bytes", "lists set up above position 0", "lists set up at a position of 2^32 or above",
    "lists with N = M", "lists with N = 1", "lists with M = 1024", "lists with N = 1000 or more",
    "receipts compared with N = 1000 or more", "lists with other numbers of buckets", "lists with the greater cap in the smaller pool",
    "lists with the greater cap in the larger pool", "lists that end with the smaller pool's 6",
    "lists that end with the smaller pool's 6 after 50 calls or more",
    "lists that end with the smaller pool's 6, which the larger serves", "lists that end with 6 in both",
    "lists of more than 50 calls without a 6", "drop, accepted", "extend, accepted", "give back of open pins",
    "unpin of the earlier of two pins", "unpin of the later of two pins", "read, accepted, of bytes", "read, bytes 8 and 9 differ",
    "peek, bytes 8 and 9 differ", "peek of a page of zeros", "pin, other number", "pin, hit in the smaller alone",
    "pin, hit in the larger alone", "pin, one wrote", "pin, other probes", "peek, in one pool and the other's store", "flush, one wrote",
    "checkpoint, other count"};

enum { MOST_REFUSAL = 19, LATE = 50 };
static unsigned long refusals[MOST_REFUSAL + 1], events[EVENTS], calls;

void tally_list(const struct sizes *sizes, uint64_t position)
{
    const struct sizes *a = &sizes[SMALLER], *b = &sizes[LARGER];
    events[LISTS]++;
    events[LARGE_BLOCKS] += a->page_size > 1024;
    events[ABOVE_ZERO] += position > 0;
    events[HIGH_POSITION] += position >> 32 > 0;
    events[EQUAL] += a->n == b->n;
    events[ONE] += a->n == 1;
    events[MOST] += b->n == 1024;
    events[GREAT] += a->n >= 1000;
    events[OTHER_BUCKETS] += a->buckets != b->buckets;
    events[CAP_SMALLER] += a->cap > b->cap;
    events[CAP_LARGER] += a->cap < b->cap;
}

/* Whether the holder has another open pin of the same page, from this index up to below the other. */
static bool has_twin(const struct asked *a, size_t from, size_t below)
{
    const struct pins *p = &pins[SMALLER];
    for (size_t k = from; k < below; k++) {
        const struct pin *other = &p->at[k];
        if (!other->is_open || other->holder != a->holder) continue;
        if (memcmp(other->name, p->at[a->pin].name, sizeof other->name) == 0) return true;
    }
    return false;
}

static bool has_open(uint64_t holder)
{
    for (size_t k = 0; k < pins[SMALLER].made; k++)
        if (pins[SMALLER].at[k].is_open && pins[SMALLER].at[k].holder == holder) return true;
    return false;
}

void tally_before(const struct asked *a)
{
    if (a->call == UNPIN) {
        events[EARLIER_FIRST] += has_twin(a, a->pin + 1, pins[SMALLER].made);
        events[LATER_FIRST] += has_twin(a, 0, a->pin);
    }
    if (a->call == GIVE_BACK) events[GAVE_PINS] += has_open(a->holder);
}

static void count_pin(const uint64_t *smaller, const uint64_t *larger)
{
    events[OTHER_NUMBER] += smaller[0] != larger[0];
    events[HIT_SMALLER] += smaller[1] > larger[1];
    events[HIT_LARGER] += smaller[1] < larger[1];
    events[OTHER_WROTE] += smaller[2] != larger[2];
    events[OTHER_PROBES] += smaller[3] != larger[3];
}

void tally_call(const struct asked *a, const struct receipt *got)
{
    const uint64_t *smaller = got[SMALLER].answer, *larger = got[LARGER].answer;
    bool sums_differ = memcmp(got[SMALLER].sum, got[LARGER].sum, SUM_BYTES) != 0;
    calls++;
    if (got[SMALLER].refusal <= MOST_REFUSAL) refusals[got[SMALLER].refusal]++;
    if (got[SMALLER].refusal != 0) return;
    switch (a->call) {
    case PIN: count_pin(smaller, larger); break;
    case READ:
        events[READ_BYTES] += a->own_len > 0;
        events[READ_SUM] += sums_differ;
        break;
    case FLUSH: events[OTHER_FLUSHED] += smaller[0] != larger[0]; break;
    case CHECKPOINT: events[OTHER_WRITTEN] += smaller[0] != larger[0]; break;
    case PEEK:
        events[PEEK_SUM] += sums_differ;
        events[OTHER_PLACE] += smaller[0] != larger[0];
        events[ZEROS] += is_zeros(got[SMALLER].bytes, got[SMALLER].many);
        break;
    case EXTEND: events[EXTENDED]++; break;
    case DROP: events[DROPPED]++; break;
    default: break;
    }
}

void tally_compared(const struct sizes *sizes)
{
    events[GREAT_COMPARED] += sizes[SMALLER].n >= 1000;
}

void tally_end(const struct receipt *got)
{
    bool six = got[SMALLER].refusal == 6, late = pins[SMALLER].made > LATE;
    events[BY_SIX] += six;
    events[LATE_SIX] += six && late;
    events[SIX_SERVED] += six && got[LARGER].refusal == 0;
    events[SIX_BOTH] += six && got[LARGER].refusal == 6;
    events[TO_THE_END] += !six && late;
}

unsigned long tally_calls(void)
{
    return calls;
}

void tally_print(void)
{
    for (int k = 0; k <= MOST_REFUSAL; k++) printf("%lu refusal %d\n", refusals[k], k);
    for (int k = 0; k < EVENTS; k++) printf("%lu %s\n", events[k], event_names[k]);
    printf("%lu calls\n", calls);
}
