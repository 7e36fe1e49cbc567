/* What the pool's refusal numbers are called, what they mean, and what a till does about them. bufpool.h includes this page. */
#ifndef BUFPOOL_REFUSALS_H
#define BUFPOOL_REFUSALS_H

#include "bufpool.h"

#ifdef __cplusplus
extern "C" {
#endif

/* What a till does about a result. */
#define BUFPOOL_KIND_DONE 0
#define BUFPOOL_KIND_ASK_AGAIN 1 /* 5, 6, 14: pins are in the way, at 5 the holder's own; when some were given back, the call may pass */
#define BUFPOOL_KIND_MISTAKE 2   /* a mistake in the till program, or a file that is full: asking again changes nothing */
#define BUFPOOL_KIND_DAMAGE 3    /* 1, 2: the lent memory is not a pool's; bufpool_why.h says what is wrong with it; 17: a block of the
                                    store is damaged, or has no checksum yet; the pool is sound, and goes on with other pages */

struct bufpool_refusal {
    int kind;
    const char *name, *words;
};

/* The entry of a number: its name in bufpool_calls.h, and its meaning. They stand here by number. */
BUFPOOL_INLINE const struct bufpool_refusal *bufpool_refusal_of(uint32_t refusal)
{
    static const struct bufpool_refusal all[] = {
        {BUFPOOL_KIND_DONE, "BUFPOOL_DONE", "done"},
        {BUFPOOL_KIND_DAMAGE, "BUFPOOL_SIZES", "a length, the block size or a file row breaks a rule"},
        {BUFPOOL_KIND_DAMAGE, "BUFPOOL_BOOKS", "the books are not sound"},
        {BUFPOOL_KIND_MISTAKE, "BUFPOOL_NO_FILE", "there is no such file"},
        {BUFPOOL_KIND_MISTAKE, "BUFPOOL_NO_BLOCK", "the file has not so many blocks"},
        {BUFPOOL_KIND_ASK_AGAIN, "BUFPOOL_PIN_COUNT", "this holder has as many pins on the page as can be counted"},
        {BUFPOOL_KIND_ASK_AGAIN, "BUFPOOL_ALL_PINNED", "every buffer is pinned"},
        {BUFPOOL_KIND_MISTAKE, "BUFPOOL_NO_BUFFER", "there are not so many buffers"},
        {BUFPOOL_KIND_MISTAKE, "BUFPOOL_NOT_PINNED", "this holder has no pin on the buffer"},
        {BUFPOOL_KIND_MISTAKE, "BUFPOOL_RANGE", "the bytes are not within the page, or are its log position"},
        {BUFPOOL_KIND_MISTAKE, "BUFPOOL_NO_BYTES", "there are no bytes to write"},
        {BUFPOOL_KIND_MISTAKE, "BUFPOOL_NOT_INSERTED", "the write's position is beyond the inserted log"},
        {BUFPOOL_KIND_MISTAKE, "BUFPOOL_EARLIER", "the page has a later log position"},
        {BUFPOOL_KIND_MISTAKE, "BUFPOOL_FILE_FULL", "the file is full"},
        {BUFPOOL_KIND_ASK_AGAIN, "BUFPOOL_FILE_PINNED", "a page of the file is pinned"},
        {BUFPOOL_KIND_MISTAKE, "BUFPOOL_LOG_SHORTER", "the log is inserted further already"},
        {BUFPOOL_KIND_MISTAKE, "BUFPOOL_FLUSHED_BEYOND", "the log cannot be flushed further than it is inserted"},
        {BUFPOOL_KIND_DAMAGE, "BUFPOOL_CHECKSUM", "the block in the store does not have its checksum"},
        {BUFPOOL_KIND_MISTAKE, "BUFPOOL_BAD_CAP", "the cap is not from 1 to 15"},
        {BUFPOOL_KIND_MISTAKE, "BUFPOOL_NO_HOLDER", "the holder is not from 0 to 63"},
        {BUFPOOL_KIND_MISTAKE, "unknown", "not a result of these calls"},
    };
    const uint32_t known = sizeof all / sizeof *all - 1;
    return &all[refusal < known ? refusal : known];
}

/* The number's name, as "BUFPOOL_ALL_PINNED". */
BUFPOOL_INLINE const char *bufpool_refusal_name(uint32_t refusal) { return bufpool_refusal_of(refusal)->name; }

/* What it means, for messages. */
BUFPOOL_INLINE const char *bufpool_refusal_words(uint32_t refusal) { return bufpool_refusal_of(refusal)->words; }

/* BUFPOOL_KIND_DONE, BUFPOOL_KIND_ASK_AGAIN, BUFPOOL_KIND_MISTAKE or BUFPOOL_KIND_DAMAGE. */
BUFPOOL_INLINE int bufpool_refusal_kind(uint32_t refusal) { return bufpool_refusal_of(refusal)->kind; }

/* What to do about it, for messages. */
BUFPOOL_INLINE const char *bufpool_refusal_advice(uint32_t refusal)
{
    /* by kind; then for a block */
    static const char *const all[] = {
        "go on",
        "ask again when pins have been given back",
        "mend the till program or its set-up: asking again changes nothing",
        "stop: the lent memory is damaged, or was lent wrongly",
        "a copy of the file, head office's tool (it accepts damage as it is), or a drop",
    };
    return all[refusal == BUFPOOL_CHECKSUM ? BUFPOOL_KIND_DAMAGE + 1 : bufpool_refusal_kind(refusal)];
}

#ifdef __cplusplus
}
#endif

#endif
