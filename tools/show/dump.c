#include "dump.h"

#include <errno.h>
#include <stdlib.h>

void *memory(size_t count, size_t size)
{
    void *zeros = calloc(count, size);
    if (zeros != NULL) return zeros;
    fputs("bufpool-show: no memory\n", stderr);
    exit(1);
}

/* A slice and its length, as they were lent. */
#define LENT(k, at) (s->head.nulls >> (k) & 1) != 0 ? NULL : (at), s->head.lengths[k]

/* Of the pages a snapshot has only the log positions, and of the store nothing. */
static struct bufpool lent(struct snapshot *s, uint8_t *bytes)
{
    struct bufpool m = {LENT(0, s->control), LENT(1, s->states), LENT(2, s->names), LENT(3, bytes), LENT(4, s->free),
                        LENT(5, s->heads),   LENT(6, s->chain),  LENT(7, s->rows),  LENT(8, bytes), LENT(9, s->counts)};
    return m;
}

/* Answers whether as much is kept as bufpool_dump keeps of slices with these lengths. */
static int view_snapshot(struct snapshot *s)
{
    static uint8_t nothing[1]; /* not read: the log positions are the snapshot's */
    struct bufpool m = lent(s, nothing);
    s->view = bufpool_view_of(&m);
    s->view.positions = s->positions;
    return memcmp(s->view.kept, s->head.kept, sizeof s->head.kept) == 0;
}

/* The head's first 16 bytes, which every interface has. */
static enum reading read_mark(FILE *dump, struct bufpool_dump_head *head, char *why)
{
    const size_t first = offsetof(struct bufpool_dump_head, lengths);
    size_t got = fread(head, 1, first, dump), marked = got < sizeof head->mark ? got : sizeof head->mark;
    if (got == 0) return READ_END;
    if (memcmp(head->mark, BUFPOOL_DUMP_MARK, marked) != 0) {
        snprintf(why, BUFPOOL_PAGE_TEXT, "not a dump of a pool: it begins with another mark");
        return READ_BAD;
    }
    if (got < first) return READ_CUT;
    if (head->interface_number != BUFPOOL_INTERFACE) {
        snprintf(why, BUFPOOL_PAGE_TEXT, "of interface %u, and this program reads interface %d", head->interface_number, BUFPOOL_INTERFACE);
        return READ_BAD;
    }
    if (head->event_bytes == sizeof head->event) return READ_ONE;
    snprintf(why, BUFPOOL_PAGE_TEXT, "damaged: its event has %u bytes, not %zu", head->event_bytes, sizeof head->event);
    return READ_BAD;
}

/* Sizes within the arrays that they are read into. */
static int sizes_fit(const struct bufpool_dump_head *head)
{
    int k;
    for (k = 0; k < BUFPOOL_KEPT_SLICES; k++) {
        if (head->kept[k] > bufpool_most_kept(k)) return 0;
    }
    return 1;
}

static enum reading read_head(FILE *dump, struct bufpool_dump_head *head, char *why)
{
    const size_t first = offsetof(struct bufpool_dump_head, lengths);
    enum reading found = read_mark(dump, head, why);
    if (found != READ_ONE) return found;
    if (fread((char *)head + first, sizeof *head - first, 1, dump) != 1) return READ_CUT;
    head->event.text[BUFPOOL_EVENT_TEXT] = '\0';
    if (sizes_fit(head)) return READ_ONE;
    snprintf(why, BUFPOOL_PAGE_TEXT, "damaged: its sizes are beyond those of a pool");
    return READ_BAD;
}

static int read_slices(FILE *dump, struct snapshot *s)
{
    const struct { void *at; size_t size; } slices[BUFPOOL_KEPT_SLICES] = {
        {s->control, 8}, {s->states, 4}, {s->names, 4},  {s->free, 4},     {s->heads, 4},
        {s->chain, 4},   {s->rows, 4},   {s->counts, 2}, {s->positions, 8}};
    int k;
    for (k = 0; k < BUFPOOL_KEPT_SLICES; k++) {
        if (fread(slices[k].at, slices[k].size, s->head.kept[k], dump) != s->head.kept[k]) return 0;
    }
    return 1;
}

static enum reading read_snapshot(FILE *dump, struct snapshot *s, char *why)
{
    enum reading found = read_head(dump, &s->head, why);
    if (found != READ_ONE) return found;
    if (!read_slices(dump, s)) return READ_CUT;
    if (view_snapshot(s)) return READ_ONE;
    snprintf(why, BUFPOOL_PAGE_TEXT, "damaged: its sizes do not go with the lengths");
    return READ_BAD;
}

enum reading dump_read(FILE *dump, struct snapshot *out, char why[BUFPOOL_PAGE_TEXT])
{
    long from = ftell(dump);
    enum reading found = read_snapshot(dump, out, why);
    if (found == READ_ONE) return READ_ONE;
    if (found == READ_CUT) snprintf(why, BUFPOOL_PAGE_TEXT, "cut short");
    if (ferror(dump)) {
        snprintf(why, BUFPOOL_PAGE_TEXT, "%.100s", strerror(errno));
        found = READ_FAILED;
    }
    clearerr(dump);
    fseek(dump, from, SEEK_SET);
    return found;
}

/* ---- Why it is not sound ---- */

/* The bytes that bufpool_page_position takes apart. */
static void put_position(uint8_t *page, uint64_t position)
{
    int k;
    for (k = 0; k < BUFPOOL_POSITION_BYTES; k++) page[k ^ 3] = (uint8_t)(position >> (56 - 8 * k));
}

/* Zeros but for the log positions: the rules are about no other byte of a page. */
static uint8_t *pages_of(const struct snapshot *s)
{
    const uint64_t pages = s->view.kept[BUFPOOL_KEPT_POSITIONS], page_size = bufpool_view_page_size(&s->view);
    uint8_t *bytes = memory(1, pages * page_size + 1);
    uint64_t b;
    for (b = 0; b < pages; b++) put_position(bytes + b * page_size, s->positions[b]);
    return bytes;
}

/* Every element that a length speaks of is kept, and a page for each state word. */
static int whole(const struct snapshot *s)
{
    static const int length_of[BUFPOOL_KEPT_SLICES] = {0, 1, 2, 4, 5, 6, 7, 9, 1};
    int k;
    for (k = 0; k < BUFPOOL_KEPT_SLICES; k++) {
        if (s->head.kept[k] != s->head.lengths[length_of[k]]) return 0;
    }
    return 1;
}

/* Less is kept than the lengths say where a slice was null or is longer than in the greatest pool, and where no pool has such a block size
   or the pool is short. Each of these is refused before any rule of section 4. So those rules are not asked then, nor is the cap, and
   nothing is read that is not here: of the slices section 3 reads only rows, and these behind rule 3.8, by which they are not too long. */
uint32_t snapshot_why(const struct snapshot *s, char words[BUFPOOL_WHY_BYTES])
{
    struct bufpool m = s->view.lent;
    uint8_t *pages = pages_of(s);
    uint32_t refusal;
    if (m.pool != NULL) m.pool = pages;
    if (whole(s)) {
        refusal = bufpool_why(&m, words, BUFPOOL_WHY_BYTES);
    } else {
        refusal = bufpool_why_set_up(&m, bufpool_view_control(&s->view, BUFPOOL_CONTROL_AT_PAGE_SIZE), BUFPOOL_DEFAULT_CAP, words,
                                     BUFPOOL_WHY_BYTES);
    }
    free(pages);
    return refusal;
}
