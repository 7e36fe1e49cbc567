/* What a call gives its caller that does not hang on the number of buffers: the refusal, an extend's block number, and bytes: those that a
   read fills in or a peek hands back, without the page's 8 and 9; where nothing is filled in, the caller's own. */
#ifndef RECEIPT_H
#define RECEIPT_H

#include "lent.h"
#include "sum.h"
#include <stdbool.h>

struct receipt {
    uint32_t refusal;
    uint64_t block; /* of an accepted extend, else 0 */
    size_t many;
    uint8_t bytes[MOST_OWN]; /* a page's bytes 8 and 9 are 0 */

    /* not of the receipt: the call's answer, the page's bytes 8 and 9, whether the caller's bytes are as before or were filled in */
    uint64_t answer[ANSWER_WORDS];
    uint8_t sum[SUM_BYTES];
    bool is_kept;
};

/* Of a call that was just made on the pool chosen last. */
void receipt_of(struct receipt *r, const struct request *q, uint32_t result);

/* A null pointer, or what two pools' receipts of one call differ in. */
const char *receipts_differ(const struct receipt *a, const struct receipt *b);

#endif
