#include "steps.h"

enum { FIRST_PROBES = 24, LAST_PROBES = 8 }; /* of a long sweep */

/* A sweep as it goes on: the usage counts so far, and where the hand is. */
struct sweep {
    uint32_t usage[BUFPOOL_MAX_BUFFERS];
    uint64_t hand, buffers;
};

static uint64_t probes_of(const struct snapshot *s)
{
    /* a refusal answers no probes: it has looked at each buffer once */
    return s->head.event.refusal == BUFPOOL_ALL_PINNED ? s->view.kept[BUFPOOL_KEPT_STATES] : s->head.event.pinned.probes;
}

int step_swept(const struct snapshot *s)
{
    const struct bufpool_event *event = &s->head.event;
    if (event->kind != BUFPOOL_EVENT_PIN) return 0;
    return event->refusal == BUFPOOL_ALL_PINNED || (event->refusal == BUFPOOL_DONE && event->pinned.probes > 0);
}

static void begin(struct sweep *sweep, const struct snapshot *before)
{
    uint64_t b;
    sweep->buffers = before->view.kept[BUFPOOL_KEPT_STATES];
    sweep->hand = bufpool_view_control(&before->view, BUFPOOL_CONTROL_AT_HAND);
    for (b = 0; b < sweep->buffers; b++) sweep->usage[b] = bufpool_state_usage(before->states[b]);
}

/* One probe. Answers whether its buffer is taken; the hand stands behind it then. */
static int probe(struct sweep *sweep, const struct snapshot *before)
{
    uint64_t b = sweep->hand;
    sweep->hand = (b + 1) % sweep->buffers;
    if (bufpool_state_pins(before->states[b]) > 0) return 0;
    if (sweep->usage[b] == 0) return 1;
    sweep->usage[b]--;
    return 0;
}

/* Whether a sweep from the snapshot before ends as this pin did: with that buffer, and a dirty page in it if one was written back. It does
   not if the till wrote no snapshot right before the pin, nor after more probes than its cap allows, which is none where the cap is bad. */
static int follows(const struct snapshot *before, const struct snapshot *s)
{
    uint64_t probes = probes_of(s), cap, k, at = 0;
    struct sweep sweep;
    int taken = 0;
    if (before == NULL) return 0;
    begin(&sweep, before);
    cap = bufpool_view_cap(&before->view);
    if (sweep.hand >= sweep.buffers || cap == 0 || probes > (cap + 1) * sweep.buffers) return 0;
    for (k = 0; k < probes && !taken; k++) {
        at = sweep.hand;
        taken = probe(&sweep, before);
    }
    if (s->head.event.refusal == BUFPOOL_ALL_PINNED) return !taken;
    return taken && k == probes && at == s->head.event.pinned.buffer.number
        && bufpool_state_dirty(before->states[at]) == (s->head.event.pinned.wrote != 0);
}

int step_took(const struct snapshot *before, const struct snapshot *s, uint64_t b)
{
    const struct bufpool_event *event = &s->head.event;
    return step_swept(s) && event->refusal == BUFPOOL_DONE && event->pinned.buffer.number == b && follows(before, s);
}

static void print_probe(const struct sweep *sweep, const struct snapshot *before, const struct snapshot *s, uint64_t k)
{
    uint64_t b = sweep->hand;
    printf("  sweep %4llu: buffer %llu ", (bufpool_shown)k + 1, (bufpool_shown)b);
    if (bufpool_state_pins(before->states[b]) > 0) {
        printf("is pinned, passed\n");
    } else if (sweep->usage[b] > 0) {
        printf("has usage %u, lowered to %u\n", sweep->usage[b], sweep->usage[b] - 1);
    } else {
        printf("has usage 0, taken%s\n", s->head.event.pinned.wrote ? "; its page is dirty and is written back first" : "");
    }
}

void print_sweep(const struct snapshot *before, const struct snapshot *s, int all)
{
    uint64_t probes = probes_of(s), k;
    struct sweep sweep;
    if (!follows(before, s)) {
        printf("  sweep: %llu probe%s%s; there is no snapshot from right before the pin\n", (bufpool_shown)probes, probes == 1 ? "" : "s",
               s->head.event.pinned.wrote ? ", and a page written back" : "");
        return;
    }
    begin(&sweep, before);
    for (k = 0; k < probes; k++) {
        if (all || probes <= FIRST_PROBES + LAST_PROBES || k < FIRST_PROBES || k >= probes - LAST_PROBES) {
            print_probe(&sweep, before, s, k);
        } else if (k == FIRST_PROBES) {
            printf("  sweep      : %llu probes more\n", (bufpool_shown)(probes - FIRST_PROBES - LAST_PROBES));
        }
        (void)probe(&sweep, before);
    }
}
