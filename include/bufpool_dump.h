/* Snapshots of a pool, appended to a file that bufpool-show reads. bufpool_show.h includes this page.

   A snapshot is a struct bufpool_dump_head and then as many elements of each slice as head.kept says, all numbers as this machine has
   them. It carries its own sizes and stands for itself: a file needs nothing before the first, and may have snapshots of several pools.
   No call of the library is made, and the pool's words are not trusted: a slice is read up to its length, and no further than the
   greatest pool's. So a pool may be written out also where every call refuses it. */
#ifndef BUFPOOL_DUMP_H
#define BUFPOOL_DUMP_H

#include <stdio.h>
#include <string.h>

#include "bufpool.h"

#ifdef __cplusplus
extern "C" {
#endif

/* ---- What happened ---- */

#define BUFPOOL_EVENT_NONE 0 /* nothing is said of it */
#define BUFPOOL_EVENT_CALL 1
#define BUFPOOL_EVENT_PIN 2
#define BUFPOOL_EVENT_END 3 /* the till writes no more: who watches the file need not wait. It is not shown. */

#define BUFPOOL_EVENT_TEXT 80 /* characters */

struct bufpool_event {
    uint32_t kind;
    uint32_t pool;                     /* which one, in a file with snapshots of several pools; else 0 */
    uint32_t refusal;                  /* what the call resulted in */
    struct bufpool_name name;          /* of a pin: the page */
    struct bufpool_pinned pinned;      /* of a pin: its answer */
    char text[BUFPOOL_EVENT_TEXT + 8]; /* of a pin: who made it; else what was done. It ends with a 0 byte */
};

/* The text may be a null pointer, and is cut if it is too long. */
BUFPOOL_INLINE struct bufpool_event bufpool_event_of(uint32_t kind, const char *text)
{
    struct bufpool_event event;
    size_t k;
    memset(&event, 0, sizeof event);
    event.kind = kind;
    for (k = 0; text != NULL && k < BUFPOOL_EVENT_TEXT && text[k] != '\0'; k++) event.text[k] = text[k];
    return event;
}

BUFPOOL_INLINE struct bufpool_event bufpool_event_of_call(const char *text, uint32_t refusal)
{
    struct bufpool_event event = bufpool_event_of(BUFPOOL_EVENT_CALL, text);
    event.refusal = refusal;
    return event;
}

BUFPOOL_INLINE struct bufpool_event bufpool_event_of_pin(const char *who, struct bufpool_name name, uint32_t refusal,
                                                         const struct bufpool_pinned *pinned)
{
    struct bufpool_event event = bufpool_event_of(BUFPOOL_EVENT_PIN, who);
    event.refusal = refusal;
    event.name = name;
    event.pinned = *pinned;
    return event;
}

/* ---- What can be read of a pool ---- */

/* The slices that are kept; of pool and store only the buffers' log positions are. */
#define BUFPOOL_KEPT_CONTROL 0
#define BUFPOOL_KEPT_STATES 1
#define BUFPOOL_KEPT_NAMES 2
#define BUFPOOL_KEPT_FREE 3
#define BUFPOOL_KEPT_HEADS 4
#define BUFPOOL_KEPT_CHAIN 5
#define BUFPOOL_KEPT_ROWS 6
#define BUFPOOL_KEPT_COUNTS 7
#define BUFPOOL_KEPT_POSITIONS 8
#define BUFPOOL_KEPT_SLICES 9

#define BUFPOOL_LENGTHS 10 /* of struct bufpool */

/* A file's name in a print. */
struct bufpool_file_name {
    struct bufpool_file file;
    const char *name;
};

struct bufpool_view {
    struct bufpool lent;                   /* the slices, with the lengths as they were lent */
    uint64_t kept[BUFPOOL_KEPT_SLICES];    /* how many elements of each are read */
    const uint64_t *positions;             /* the buffers' log positions, or null: then they are taken from the pages */
    const struct bufpool_file_name *files; /* names for files; the others are printed as four numbers */
    uint64_t files_len;
};

/* The most elements that a pool has of a kept slice. */
BUFPOOL_INLINE uint64_t bufpool_most_kept(int slice)
{
    static const uint64_t most[BUFPOOL_KEPT_SLICES] = {
        BUFPOOL_CONTROL_WORDS, BUFPOOL_MAX_BUFFERS, BUFPOOL_NAME_WORDS * BUFPOOL_MAX_BUFFERS, BUFPOOL_MAX_BUFFERS,
        BUFPOOL_MAX_BUCKETS,   BUFPOOL_MAX_BUFFERS, BUFPOOL_ROW_WORDS * BUFPOOL_MAX_FILES,    BUFPOOL_MAX_HOLDERS * BUFPOOL_MAX_BUFFERS,
        BUFPOOL_MAX_BUFFERS};
    return most[slice];
}

static inline void bufpool_keep(struct bufpool_view *v, int slice, const void *at, uint64_t length)
{
    uint64_t most = bufpool_most_kept(slice);
    v->kept[slice] = at == NULL ? 0 : length < most ? length : most;
}

/* P, or 0 where the control record has none that a pool can have. */
BUFPOOL_INLINE uint64_t bufpool_view_page_size(const struct bufpool_view *v)
{
    uint64_t page_size = v->kept[BUFPOOL_KEPT_CONTROL] > 0 ? v->lent.control[BUFPOOL_CONTROL_AT_PAGE_SIZE] : 0;
    return bufpool_bytes(1, 1, page_size) != 0 ? page_size : 0;
}

/* The cap, or 0 where the control record has none that a pool can have. */
BUFPOOL_INLINE uint64_t bufpool_view_cap(const struct bufpool_view *v)
{
    uint64_t cap = v->kept[BUFPOOL_KEPT_CONTROL] > BUFPOOL_CONTROL_AT_CAP ? v->lent.control[BUFPOOL_CONTROL_AT_CAP] : 0;
    return cap <= BUFPOOL_MAX_CAP ? cap : 0;
}

BUFPOOL_INLINE struct bufpool_view bufpool_view_of(const struct bufpool *m)
{
    struct bufpool_view v;
    uint64_t page_size, pages;
    memset(&v, 0, sizeof v);
    v.lent = *m;
    bufpool_keep(&v, BUFPOOL_KEPT_CONTROL, m->control, m->control_len);
    bufpool_keep(&v, BUFPOOL_KEPT_STATES, m->states, m->states_len);
    bufpool_keep(&v, BUFPOOL_KEPT_NAMES, m->names, m->names_len);
    bufpool_keep(&v, BUFPOOL_KEPT_FREE, m->free, m->free_len);
    bufpool_keep(&v, BUFPOOL_KEPT_HEADS, m->heads, m->heads_len);
    bufpool_keep(&v, BUFPOOL_KEPT_CHAIN, m->chain, m->chain_len);
    bufpool_keep(&v, BUFPOOL_KEPT_ROWS, m->rows, m->rows_len);
    bufpool_keep(&v, BUFPOOL_KEPT_COUNTS, m->counts, m->counts_len);
    page_size = bufpool_view_page_size(&v);
    pages = page_size == 0 ? 0 : m->pool_len / page_size;
    bufpool_keep(&v, BUFPOOL_KEPT_POSITIONS, m->pool, pages < v.kept[BUFPOOL_KEPT_STATES] ? pages : v.kept[BUFPOOL_KEPT_STATES]);
    return v;
}

/* The log position of a buffer below kept[BUFPOOL_KEPT_POSITIONS]. An empty buffer's page may never have been written: 0. */
BUFPOOL_INLINE uint64_t bufpool_view_position(const struct bufpool_view *v, uint64_t buffer)
{
    if (v->positions != NULL) return v->positions[buffer];
    if (bufpool_state_empty(v->lent.states[buffer])) return 0;
    return bufpool_page_position(v->lent.pool + buffer * bufpool_view_page_size(v));
}

/* A buffer's 64 private counts, by holder; a null pointer where they are not all there. */
BUFPOOL_INLINE const uint16_t *bufpool_view_counts(const struct bufpool_view *v, uint64_t buffer)
{
    return buffer < v->kept[BUFPOOL_KEPT_COUNTS] / BUFPOOL_MAX_HOLDERS ? v->lent.counts + BUFPOOL_MAX_HOLDERS * buffer : NULL;
}

/* ---- Snapshots ---- */

#define BUFPOOL_DUMP_MARK "bufdump2"

struct bufpool_dump_head {
    char mark[8];
    uint32_t interface_number, event_bytes; /* BUFPOOL_INTERFACE and sizeof event */
    uint64_t lengths[BUFPOOL_LENGTHS];      /* as lent, in the order of struct bufpool */
    uint64_t kept[BUFPOOL_KEPT_SLICES];     /* how many elements follow, in the order of the numbers above */
    uint64_t nulls;                         /* a bit for each slice that is a null pointer, in the order of struct bufpool from bit 0 on */
    struct bufpool_event event;
};

static inline void bufpool_dump_lengths(uint64_t *lengths, const struct bufpool *m)
{
    lengths[0] = m->control_len;
    lengths[1] = m->states_len;
    lengths[2] = m->names_len;
    lengths[3] = m->pool_len;
    lengths[4] = m->free_len;
    lengths[5] = m->heads_len;
    lengths[6] = m->chain_len;
    lengths[7] = m->rows_len;
    lengths[8] = m->store_len;
    lengths[9] = m->counts_len;
}

BUFPOOL_INLINE uint64_t bufpool_dump_nulls(const struct bufpool *m)
{
    const void *const slices[BUFPOOL_LENGTHS] = {m->control, m->states, m->names, m->pool,  m->free,
                                                 m->heads,   m->chain,  m->rows,  m->store, m->counts};
    uint64_t nulls = 0;
    int k;
    for (k = 0; k < BUFPOOL_LENGTHS; k++) nulls |= (uint64_t)(slices[k] == NULL) << k;
    return nulls;
}

static inline void bufpool_dump_fill(struct bufpool_dump_head *head, const struct bufpool_view *v, const struct bufpool_event *event)
{
    memset(head, 0, sizeof *head);
    memcpy(head->mark, BUFPOOL_DUMP_MARK, sizeof head->mark);
    head->interface_number = BUFPOOL_INTERFACE;
    head->event_bytes = sizeof head->event;
    bufpool_dump_lengths(head->lengths, &v->lent);
    memcpy(head->kept, v->kept, sizeof head->kept);
    head->nulls = bufpool_dump_nulls(&v->lent);
    if (event != NULL) head->event = *event;
}

BUFPOOL_INLINE int bufpool_dump_slice(FILE *out, const void *at, size_t size, uint64_t count)
{
    if (at == NULL || count == 0) return 0;
    return fwrite(at, size, (size_t)count, out) == count ? 0 : -1;
}

BUFPOOL_INLINE int bufpool_dump_positions(FILE *out, const struct bufpool_view *v)
{
    uint64_t b, position;
    for (b = 0; b < v->kept[BUFPOOL_KEPT_POSITIONS]; b++) {
        position = bufpool_view_position(v, b);
        if (fwrite(&position, sizeof position, 1, out) != 1) return -1;
    }
    return 0;
}

/* Appends a snapshot. The event may be a null pointer. Results in 0, or in -1 if it could not be written, or not entirely: then nothing
   behind it can be read either. Of one file's snapshots each is written before the next is begun; a reader may follow at the same time. */
BUFPOOL_INLINE int bufpool_dump(FILE *out, const struct bufpool *m, const struct bufpool_event *event)
{
    struct bufpool_view v = bufpool_view_of(m);
    struct bufpool_dump_head head;
    bufpool_dump_fill(&head, &v, event);
    if (fwrite(&head, sizeof head, 1, out) != 1 || bufpool_dump_slice(out, m->control, 8, v.kept[BUFPOOL_KEPT_CONTROL]) != 0
        || bufpool_dump_slice(out, m->states, 4, v.kept[BUFPOOL_KEPT_STATES]) != 0
        || bufpool_dump_slice(out, m->names, 4, v.kept[BUFPOOL_KEPT_NAMES]) != 0
        || bufpool_dump_slice(out, m->free, 4, v.kept[BUFPOOL_KEPT_FREE]) != 0
        || bufpool_dump_slice(out, m->heads, 4, v.kept[BUFPOOL_KEPT_HEADS]) != 0
        || bufpool_dump_slice(out, m->chain, 4, v.kept[BUFPOOL_KEPT_CHAIN]) != 0
        || bufpool_dump_slice(out, m->rows, 4, v.kept[BUFPOOL_KEPT_ROWS]) != 0
        || bufpool_dump_slice(out, m->counts, 2, v.kept[BUFPOOL_KEPT_COUNTS]) != 0 || bufpool_dump_positions(out, &v) != 0) return -1;
    return fflush(out) == 0 ? 0 : -1;
}

#ifdef __cplusplus
}
#endif

#endif
