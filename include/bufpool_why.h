/* Why lent memory is refused with 1 or 2: which rule is broken and where, in words. For a till's messages and for whoever looks for the
   mistake. It goes through the rules of docs/RULES.md one by one, in time that grows as N * N, and needs no library.

   A message begins with the rule's number, as "rule 4.11: the chain of bucket 6 leads to buffer 20, and there are 16 buffers". It names the
   first broken rule; another one shows when that is mended. Nothing is read before its length is right, no link is followed before it is
   tested: any memory can be looked at whose slices are as long as they say. */
#ifndef BUFPOOL_WHY_H
#define BUFPOOL_WHY_H

#include "bufpool_why_sizes.h"

#ifdef __cplusplus
extern "C" {
#endif

/* ---- 4, books: the sizes are right ---- */

BUFPOOL_INLINE int bufpool_why_empty(const struct bufpool_why_look *l, bufpool_why_number i) { return l->m->states[i] == 0; }

/* Rules 4.14, on which 4.3 relies, 4.1 and 4.2. */
BUFPOOL_INLINE uint32_t bufpool_why_control(const struct bufpool_why_look *l)
{
    const bufpool_why_number hand = l->m->control[BUFPOOL_CONTROL_AT_HAND], cap = bufpool_cap(l->m);
    const bufpool_why_number inserted = bufpool_inserted(l->m), flushed = bufpool_flushed(l->m);
    if (cap < BUFPOOL_MIN_CAP || cap > BUFPOOL_MAX_CAP)
        return bufpool_why_say(l, BUFPOOL_BOOKS, "rule 4.14: the cap is %llu, not 1 to 15", cap);
    if (hand >= l->n)
        return bufpool_why_say(l, BUFPOOL_BOOKS, "rule 4.1: the hand is at buffer %llu, and there are %llu buffers", hand, l->n);
    if (flushed > inserted)
        return bufpool_why_say(l, BUFPOOL_BOOKS, "rule 4.2: flushed is %llu, and inserted is %llu", flushed, inserted);
    return BUFPOOL_DONE;
}

/* What is wrong with the flags of a state word that is not 0; a null pointer if nothing is. */
BUFPOOL_INLINE const char *bufpool_why_flags(uint32_t state)
{
    const uint32_t others = 1u << 22 | 1u << 26 | 1u << 27 | 1u << 29 | 1u << 30;
    if ((state >> 24 & 1) == 0) return "it is not 0 and lacks flag 24, valid";
    if ((state >> 25 & 1) == 0) return "it is not 0 and lacks flag 25, tag valid";
    if ((state >> 31 & 1) == 0) return "it is not 0 and lacks flag 31, permanent";
    if ((state >> 23 & 1) != (state >> 28 & 1)) return "of the flags 23, dirty, and 28, just dirtied, it has one alone";
    if ((state & others) != 0) return "it has one of the flags 22, 26, 27, 29 and 30";
    return NULL;
}

BUFPOOL_INLINE uint32_t bufpool_why_4_3(const struct bufpool_why_look *l, bufpool_why_number i)
{
    const uint32_t state = l->m->states[i], usage = bufpool_state_usage(state);
    const bufpool_why_number cap = bufpool_cap(l->m);
    const char *wrong = state == 0 ? NULL : bufpool_why_flags(state);
    if (wrong != NULL) return bufpool_why_say(l, BUFPOOL_BOOKS, "rule 4.3: the state word of buffer %llu is 0x%08X: %s", i, state, wrong);
    if (usage <= cap) return BUFPOOL_DONE;
    return bufpool_why_say(l, BUFPOOL_BOOKS, "rule 4.3: the usage count of buffer %llu is %u, and the cap is %llu", i, usage, cap);
}

BUFPOOL_INLINE uint32_t bufpool_why_4_4(const struct bufpool_why_look *l, bufpool_why_number i)
{
    const uint32_t zeros[BUFPOOL_NAME_WORDS] = {0}, *name = bufpool_why_name(l->m, i);
    if (!bufpool_why_empty(l, i) || bufpool_why_same_name(name, zeros)) return BUFPOOL_DONE;
    return bufpool_why_say(l, BUFPOOL_BOOKS, "rule 4.4: buffer %llu is empty, and its name is block %u of file %u %u %u %u, not five zeros",
                           i, name[BUFPOOL_NAME_AT_BLOCK], BUFPOOL_WHY_FILE(name));
}

BUFPOOL_INLINE uint32_t bufpool_why_4_5(const struct bufpool_why_look *l, bufpool_why_number i)
{
    const int link = l->m->chain[i];
    if (!bufpool_why_empty(l, i) || link == -1) return BUFPOOL_DONE;
    return bufpool_why_say(l, BUFPOOL_BOOKS, "rule 4.5: buffer %llu is empty, and its chain link is %d, not -1", i, link);
}

BUFPOOL_INLINE uint32_t bufpool_why_4_6(const struct bufpool_why_look *l)
{
    const bufpool_why_number top = l->m->control[BUFPOOL_CONTROL_AT_FREE_TOP];
    uint8_t seen[BUFPOOL_MAX_BUFFERS] = {0};
    long long at;
    if (top != BUFPOOL_BUFFER_NONE && top >= l->n)
        return bufpool_why_say(l, BUFPOOL_BOOKS, "rule 4.6: the free list begins with buffer %llu, and there are %llu buffers", top, l->n);
    for (at = top == BUFPOOL_BUFFER_NONE ? -1 : (long long)top; at != -1; at = l->m->free[at]) {
        if (at < 0 || at >= (long long)l->n)
            return bufpool_why_say(l, BUFPOOL_BOOKS, "rule 4.6: the free list leads to buffer %lld, and there are %llu buffers", at, l->n);
        if (l->m->states[at] != 0)
            return bufpool_why_say(l, BUFPOOL_BOOKS, "rule 4.6: the free list leads to buffer %lld, which is not empty", at);
        if (seen[at]++ != 0) return bufpool_why_say(l, BUFPOOL_BOOKS, "rule 4.6: the free list leads to buffer %lld a second time", at);
    }
    return BUFPOOL_DONE;
}

/* Whether links lead to a buffer; that they end is known. */
BUFPOOL_INLINE int bufpool_why_leads_to(const int32_t *links, long long at, bufpool_why_number i)
{
    while (at >= 0 && (bufpool_why_number)at != i) at = links[at];
    return at >= 0;
}

BUFPOOL_INLINE uint32_t bufpool_why_4_7(const struct bufpool_why_look *l, bufpool_why_number i)
{
    const uint64_t top = l->m->control[BUFPOOL_CONTROL_AT_FREE_TOP];
    if (!bufpool_why_empty(l, i)) return BUFPOOL_DONE;
    if (top != BUFPOOL_BUFFER_NONE && bufpool_why_leads_to(l->m->free, (long long)top, i)) return BUFPOOL_DONE;
    return bufpool_why_say(l, BUFPOOL_BOOKS, "rule 4.7: buffer %llu is empty, and the free list does not lead to it", i);
}

BUFPOOL_INLINE uint32_t bufpool_why_4_8(const struct bufpool_why_look *l, bufpool_why_number i)
{
    const int link = l->m->free[i];
    if (bufpool_why_empty(l, i) || link == -2) return BUFPOOL_DONE;
    return bufpool_why_say(l, BUFPOOL_BOOKS, "rule 4.8: buffer %llu is not empty, and its free link is %d, not -2", i, link);
}

BUFPOOL_INLINE uint32_t bufpool_why_4_9(const struct bufpool_why_look *l, bufpool_why_number i)
{
    const uint32_t *name = bufpool_why_name(l->m, i), *row = bufpool_why_row_for(l->m, name), block = name[BUFPOOL_NAME_AT_BLOCK];
    if (bufpool_why_empty(l, i)) return BUFPOOL_DONE;
    if (row == NULL)
        return bufpool_why_say(l, BUFPOOL_BOOKS, "rule 4.9: buffer %llu has block %u of file %u %u %u %u, which has no row", i, block,
                               BUFPOOL_WHY_FILE(name));
    if (block < row[BUFPOOL_ROW_AT_BLOCKS]) return BUFPOOL_DONE;
    return bufpool_why_say(l, BUFPOOL_BOOKS, "rule 4.9: buffer %llu has block %u of file %u %u %u %u, which has %u blocks", i, block,
                           BUFPOOL_WHY_FILE(name), row[BUFPOOL_ROW_AT_BLOCKS]);
}

BUFPOOL_INLINE uint32_t bufpool_why_4_10(const struct bufpool_why_look *l, bufpool_why_number i)
{
    const uint32_t *name = bufpool_why_name(l->m, i);
    bufpool_why_number j = 0;
    if (bufpool_why_empty(l, i)) return BUFPOOL_DONE;
    while (j < i && (bufpool_why_empty(l, j) || !bufpool_why_same_name(bufpool_why_name(l->m, j), name))) j++;
    if (j == i) return BUFPOOL_DONE;
    return bufpool_why_say(l, BUFPOOL_BOOKS, "rule 4.10: the buffers %llu and %llu both have block %u of file %u %u %u %u", j, i,
                           name[BUFPOOL_NAME_AT_BLOCK], BUFPOOL_WHY_FILE(name));
}

/* Here i is a bucket. */
BUFPOOL_INLINE uint32_t bufpool_why_4_11(const struct bufpool_why_look *l, bufpool_why_number i)
{
    uint8_t seen[BUFPOOL_MAX_BUFFERS] = {0};
    bufpool_why_number bucket;
    long long at;
    for (at = l->m->heads[i]; at != -1; at = l->m->chain[at]) {
        if (at < 0 || at >= (long long)l->n)
            return bufpool_why_say(l, BUFPOOL_BOOKS, "rule 4.11: the chain of bucket %llu leads to buffer %lld, and there are %llu buffers",
                                   i, at, l->n);
        if (l->m->states[at] == 0)
            return bufpool_why_say(l, BUFPOOL_BOOKS, "rule 4.11: the chain of bucket %llu leads to buffer %lld, which is empty", i, at);
        bucket = bufpool_why_bucket(l->m, (bufpool_why_number)at);
        if (bucket != i)
            return bufpool_why_say(l, BUFPOOL_BOOKS, "rule 4.11: the chain of bucket %llu leads to buffer %lld, which is of bucket %llu",
                                   i, at, bucket);
        if (seen[at]++ != 0)
            return bufpool_why_say(l, BUFPOOL_BOOKS, "rule 4.11: the chain of bucket %llu leads to buffer %lld a second time", i, at);
    }
    return BUFPOOL_DONE;
}

BUFPOOL_INLINE uint32_t bufpool_why_4_12(const struct bufpool_why_look *l, bufpool_why_number i)
{
    const bufpool_why_number bucket = bufpool_why_bucket(l->m, i);
    if (bufpool_why_empty(l, i) || bufpool_why_leads_to(l->m->chain, l->m->heads[bucket], i)) return BUFPOOL_DONE;
    return bufpool_why_say(l, BUFPOOL_BOOKS, "rule 4.12: buffer %llu is of bucket %llu, whose chain does not lead to it", i, bucket);
}

BUFPOOL_INLINE uint32_t bufpool_why_4_13(const struct bufpool_why_look *l, bufpool_why_number i)
{
    const bufpool_why_number inserted = bufpool_inserted(l->m), position = bufpool_page_position(l->m->pool + i * l->p);
    if (!bufpool_state_dirty(l->m->states[i]) || position <= inserted) return BUFPOOL_DONE;
    return bufpool_why_say(l, BUFPOOL_BOOKS, "rule 4.13: buffer %llu is dirty at log position %llu, and inserted is %llu",
                           i, position, inserted);
}

BUFPOOL_INLINE uint32_t bufpool_why_4_15(const struct bufpool_why_look *l, bufpool_why_number i)
{
    const uint16_t *counts = l->m->counts + BUFPOOL_MAX_HOLDERS * i;
    const uint32_t pins = bufpool_state_pins(l->m->states[i]);
    uint32_t holders = 0, first = 0, h;
    for (h = 0; h < BUFPOOL_MAX_HOLDERS; h++) {
        if (counts[h] != 0 && holders++ == 0) first = h;
    }
    if (pins == holders) return BUFPOOL_DONE;
    if (holders == 0)
        return bufpool_why_say(l, BUFPOOL_BOOKS, "rule 4.15: the pin count of buffer %llu is %u, and no holder has a pin on it", i, pins);
    return bufpool_why_say(l, BUFPOOL_BOOKS,
                           "rule 4.15: the pin count of buffer %llu is %u, and %u holder%s pins on it, the first is holder %u", i, pins,
                           holders, holders == 1 ? " has" : "s have", first);
}

BUFPOOL_INLINE uint32_t bufpool_why_books(const struct bufpool_why_look *l)
{
    uint32_t refusal = bufpool_why_control(l);
    if (refusal == BUFPOOL_DONE) refusal = bufpool_why_each(l, bufpool_why_4_3, l->n);
    if (refusal == BUFPOOL_DONE) refusal = bufpool_why_each(l, bufpool_why_4_4, l->n);
    if (refusal == BUFPOOL_DONE) refusal = bufpool_why_each(l, bufpool_why_4_5, l->n);
    if (refusal == BUFPOOL_DONE) refusal = bufpool_why_4_6(l);
    if (refusal == BUFPOOL_DONE) refusal = bufpool_why_each(l, bufpool_why_4_7, l->n);
    if (refusal == BUFPOOL_DONE) refusal = bufpool_why_each(l, bufpool_why_4_8, l->n);
    if (refusal == BUFPOOL_DONE) refusal = bufpool_why_each(l, bufpool_why_4_9, l->n);
    if (refusal == BUFPOOL_DONE) refusal = bufpool_why_each(l, bufpool_why_4_10, l->n);
    if (refusal == BUFPOOL_DONE) refusal = bufpool_why_each(l, bufpool_why_4_11, l->m->heads_len);
    if (refusal == BUFPOOL_DONE) refusal = bufpool_why_each(l, bufpool_why_4_12, l->n);
    if (refusal == BUFPOOL_DONE) refusal = bufpool_why_each(l, bufpool_why_4_13, l->n);
    if (refusal == BUFPOOL_DONE) refusal = bufpool_why_each(l, bufpool_why_4_15, l->n);
    return refusal;
}

/* ---- What a program calls ---- */

/* Says why every call but set up would refuse this memory. Writes words, always ended by a 0 byte and cut if they do not fit, "sound" where
   nothing is wrong; no words if words_len is 0. Results in 0, 1 or 2, the refusal by these rules. */
BUFPOOL_INLINE uint32_t bufpool_why(const struct bufpool *m, char *words, size_t words_len)
{
    struct bufpool_why_look l = {m, m->states_len, 0, words, words_len};
    uint32_t refusal = bufpool_why_pointers(&l);
    if (refusal == BUFPOOL_DONE && m->control_len > BUFPOOL_CONTROL_AT_PAGE_SIZE) l.p = bufpool_page_size(m);
    if (refusal == BUFPOOL_DONE) refusal = bufpool_why_sizes(&l);
    if (refusal == BUFPOOL_DONE) refusal = bufpool_why_books(&l);
    return refusal != BUFPOOL_DONE ? refusal : bufpool_why_say(&l, BUFPOOL_DONE, "sound");
}

/* The same for set up with this block size and cap: 0, 1 or 18. What stands in the control record is not looked at, nor are the books. */
BUFPOOL_INLINE uint32_t bufpool_why_set_up(const struct bufpool *m, uint64_t page_size, uint64_t cap, char *words, size_t words_len)
{
    const struct bufpool_why_look l = {m, m->states_len, page_size, words, words_len};
    uint32_t refusal = bufpool_why_pointers(&l);
    if (refusal == BUFPOOL_DONE) refusal = bufpool_why_sizes(&l);
    if (refusal == BUFPOOL_DONE && (cap < BUFPOOL_MIN_CAP || cap > BUFPOOL_MAX_CAP))
        return bufpool_why_say(&l, BUFPOOL_BAD_CAP, "rule 6.18: the cap given is %llu, not 1 to 15", (bufpool_why_number)cap);
    return refusal != BUFPOOL_DONE ? refusal : bufpool_why_say(&l, BUFPOOL_DONE, "sound");
}

#ifdef __cplusplus
}
#endif

#endif
