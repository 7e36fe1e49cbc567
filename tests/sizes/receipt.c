#include "receipt.h"
#include "slip.h"
#include <stdlib.h>
#include <string.h>

/* A page's bytes 8 and 9 are left out of the bytes that begin with the page's byte `from`. */
static void mask(struct receipt *r, uint64_t from)
{
    for (uint64_t k = SUM_AT; k < SUM_AT + SUM_BYTES; k++) {
        if (k < from || k - from >= r->many) continue;
        r->sum[k - SUM_AT] = r->bytes[k - from];
        if (slip != BYTES_8_9) r->bytes[k - from] = 0;
    }
}

/* The part that a peek hands back. */
static void take_part(struct receipt *r)
{
    struct memory m = library_memory();
    const uint8_t *slice = r->answer[0] == 1 ? m.pool : m.store;
    size_t length = r->answer[0] == 1 ? m.pool_len : m.store_len, page = m.control[CONTROL_SIZE];
    if (page > MOST_OWN || length < page || r->answer[1] > length - page) abort(); /* no part of what was lent */
    r->many = page;
    memcpy(r->bytes, slice + r->answer[1], page);
}

static void take_own(struct receipt *r, const struct request *q)
{
    r->many = q->own_len;
    memcpy(r->bytes, library_part(OWN), q->own_len);
    r->is_kept = (q->call == READ && r->refusal == 0) || memcmp(r->bytes, twin_own, q->own_len) == 0;
}

/* With a slip, a word of the answer to an accepted call that belongs to no receipt. */
static uint64_t slipped_word(const struct receipt *r, enum call call)
{
    static const struct { enum slip slip; enum call call; size_t word; } words[] = {
        {NUMBER, PIN, 0}, {HIT, PIN, 1}, {WROTE, PIN, 2}, {PROBES, PIN, 3},
        {FLUSHED, FLUSH, 0}, {WRITTEN, CHECKPOINT, 0}, {PLACE, PEEK, 0}};
    for (size_t k = 0; k < sizeof words / sizeof *words; k++)
        if (words[k].slip == slip && words[k].call == call) return r->answer[words[k].word];
    return 0;
}

void receipt_of(struct receipt *r, const struct request *q, uint32_t result)
{
    r->refusal = result;
    r->many = 0;
    r->is_kept = true;
    memcpy(r->answer, library_part(ANSWER), sizeof r->answer);
    memset(r->sum, 0, sizeof r->sum);
    if (q->call != PEEK) take_own(r, q);
    else if (result == 0) take_part(r);
    if (result == 0 && (q->call == READ || q->call == PEEK)) mask(r, q->call == READ ? q->from : 0);
    r->block = result != 0 ? 0 : q->call == EXTEND ? r->answer[0] : slipped_word(r, q->call);
}

const char *receipts_differ(const struct receipt *a, const struct receipt *b)
{
    if (a->refusal != b->refusal) return "the refusals differ";
    if (a->block != b->block) return "the block numbers differ";
    if (a->many != b->many || memcmp(a->bytes, b->bytes, a->many) != 0) return "the bytes differ";
    return a->is_kept && b->is_kept ? NULL : "the caller's own bytes have changed";
}
