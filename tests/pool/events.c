#include "events.h"
#include "lent.h"
#include <stdbool.h>
#include <stdio.h>
#include <string.h>

check_fn judge;

enum event {
    HIT, AT_CAP, ABOVE_FIVE, FREE_LIST, SWEPT, ROUNDS, SEVENTH, LONGEST, WROTE, FLUSHED, SEVERAL, PEEKED_POOL, PEEKED_STORE, EXTENDED,
    DROPPED, BAD_PINNED, BAD_PEEKED, SUMMED, SIZES_FIRST, CAP_UNSOUND, JOINED, SIXTY_FOURTH, AGAIN, FULL_BESIDE, FEWER, LEFT, LAST,
    OTHERS_PIN, GAVE_SEVERAL, GAVE_BESIDE, GAVE_NONE, OF_63, COUNTS_UNSOUND, EVENTS
};
static const char *const event_names[EVENTS] = {
    "pin, hit", "pin, hit with usage = cap", "pin, usage raised above 5", "pin, from the free list", "pin, two probes or more",
    "pin, more probes than buffers", "pin, more than six probes per buffer", "pin, cap + 1 probes per buffer", "pin, wrote", "flush, wrote",
    "checkpoint, wrote two or more", "peek, pool", "peek, store", "extend, accepted", "drop, buffers emptied",
    "pin, 17 with every buffer pinned", "peek, 17", "checksum, accepted", "set up, 1 with a cap that is not permitted",
    "2 with a cap that is not permitted", "pin, a holder's first while another has pins", "pin, the 64th holder's first",
    "pin, of a holder that has one", "pin, of a page of which another holder's count is the greatest", "unpin, the holder keeps pins",
    "unpin, a holder's last while another has pins", "unpin, the page's last", "8 while another holder has pins",
    "give back, of two pages or more", "give back, while another holder has pins on the page", "give back, of nothing",
    "accepted of holder 63", "2 for the counts alone"};

enum { MOST_REFUSAL = 19, PINS = 0x3FFFF };
static unsigned long refusals[MOST_REFUSAL + 1], events[EVENTS], pins_at[MOST_CAP + 1], calls;

/* before the call: top of the free list, state words, private counts */
static uint64_t top_before;
static uint32_t words_before[1032];
static uint16_t counts_before[1032 * HOLDERS];

void events_before(void)
{
    top_before = twin.control[CONTROL_TOP];
    memcpy(words_before, twin.states, twin.states_len * sizeof *twin.states);
    memcpy(counts_before, twin.counts, twin.states_len * HOLDERS * sizeof *twin.counts);
}

static bool is_cap(uint64_t cap)
{
    return cap >= LEAST_CAP && cap <= MOST_CAP;
}

/* A hit: whose pins the page had. */
static void count_hit(size_t holder, uint64_t i)
{
    const uint16_t *own = counts_before + HOLDERS * i;
    bool full = false;
    for (size_t h = 0; h < HOLDERS; h++) full = full || (own[h] == MOST_COUNT && h != holder);
    events[JOINED] += own[holder] == 0 && (words_before[i] & PINS) != 0;
    events[SIXTY_FOURTH] += own[holder] == 0 && (words_before[i] & PINS) == HOLDERS - 1;
    events[AGAIN] += own[holder] != 0;
    events[FULL_BESIDE] += full;
}

static void count_pin(size_t holder, const uint64_t *answer)
{
    uint64_t n = twin.states_len, cap = twin.control[CONTROL_CAP], usage = words_before[answer[0]] >> 18 & 15;
    bool first = counts_before[HOLDERS * answer[0] + holder] == 0;
    events[HIT] += answer[1] == 1;
    events[AT_CAP] += answer[1] == 1 && first && usage == cap;
    events[ABOVE_FIVE] += answer[1] == 1 && first && usage >= 5 && usage < cap;
    events[FREE_LIST] += answer[1] == 0 && top_before != UINT64_MAX;
    events[SWEPT] += answer[3] >= 2;
    events[ROUNDS] += answer[3] > n;
    events[SEVENTH] += answer[3] > 6 * n;
    events[LONGEST] += answer[3] == (cap + 1) * n;
    events[WROTE] += answer[2] == 1;
    if (answer[1] == 1) count_hit(holder, answer[0]);
    if (is_cap(cap)) pins_at[cap]++;
}

static void count_unpin(size_t holder, uint64_t i)
{
    bool last = counts_before[HOLDERS * i + holder] == 1;
    events[FEWER] += !last;
    events[LEFT] += last && (words_before[i] & PINS) > 1;
    events[LAST] += last && (words_before[i] & PINS) == 1;
}

static void count_give_back(size_t holder)
{
    size_t pages = 0, beside = 0;
    for (size_t i = 0; i < twin.states_len; i++) {
        bool has = counts_before[HOLDERS * i + holder] != 0;
        pages += has;
        beside += has && (words_before[i] & PINS) > 1;
    }
    events[GAVE_SEVERAL] += pages > 1;
    events[GAVE_BESIDE] += beside > 0;
    events[GAVE_NONE] += pages == 0;
}

static bool every_buffer_pinned(void)
{
    for (size_t i = 0; i < twin.states_len; i++)
        if ((twin.states[i] & PINS) == 0) return false;
    return true;
}

/* Whether the memory is sound once nothing in it is pinned; a word without flags stays. */
static bool sound_without_pins(void)
{
    static uint32_t states[1032];
    static uint16_t none[1032 * HOLDERS];
    struct memory m = twin;
    for (size_t i = 0; i < twin.states_len; i++) states[i] = twin.states[i] > PINS ? twin.states[i] & ~(uint32_t)PINS : twin.states[i];
    m.states = states;
    m.counts = none;
    return judge(LENT(&m)) == 0;
}

static void count_refused(const struct request *q, uint32_t result)
{
    if (result == 17) events[q->call == PEEK ? BAD_PEEKED : BAD_PINNED] += q->call == PEEK || every_buffer_pinned();
    events[SIZES_FIRST] += result == 1 && q->call == SET_UP && !is_cap(q->cap);
    events[CAP_UNSOUND] += result == 2 && !is_cap(twin.control[CONTROL_CAP]);
    events[OTHERS_PIN] += result == 8 && (words_before[q->buffer] & PINS) != 0;
    events[COUNTS_UNSOUND] += result == 2 && sound_without_pins();
}

void events_count(const struct request *q, uint32_t result)
{
    const uint64_t *answer = twin.answer;
    size_t holder = q->holder % HOLDERS; /* a library with a slip accepts others */
    calls++;
    if (result <= MOST_REFUSAL) refusals[result]++;
    if (result != 0) {
        count_refused(q, result);
        return;
    }
    events[OF_63] += NAMES_HOLDER(q->call) && q->holder == HOLDERS - 1;
    switch (q->call) {
    case PIN: count_pin(holder, answer); break;
    case UNPIN: count_unpin(holder, q->buffer); break;
    case FLUSH: events[FLUSHED] += answer[0] == 1; break;
    case GIVE_BACK: count_give_back(holder); break;
    case CHECKPOINT: events[SEVERAL] += answer[0] > 1; break;
    case PEEK: events[answer[0] == 1 ? PEEKED_POOL : PEEKED_STORE]++; break;
    case EXTEND: events[EXTENDED]++; break;
    case DROP: events[DROPPED] += twin.control[CONTROL_TOP] != top_before; break;
    case CHECKSUM: events[SUMMED]++; break;
    default: break;
    }
}

unsigned long events_calls(void)
{
    return calls;
}

void events_print(void)
{
    for (int k = 0; k <= MOST_REFUSAL; k++) printf("%lu refusal %d\n", refusals[k], k);
    for (int k = 0; k < EVENTS; k++) printf("%lu %s\n", events[k], event_names[k]);
    for (int k = LEAST_CAP; k <= MOST_CAP; k++) printf("%lu pins with cap %d\n", pins_at[k], k);
    printf("%lu calls\n", calls);
}
