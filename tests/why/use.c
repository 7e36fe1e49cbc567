/* A program in C or C++ that includes the header first, and twice, and is linked without a library. Status 0 if both functions answer right
   for the smallest pool, and for the same with its hand beyond it. */
#include "bufpool_why.h"
#include "bufpool_why.h"
#include <string.h>

static uint64_t memory[BUFPOOL_BYTES(1, 1, 1024) / 8 + 1];
static uint32_t rows[BUFPOOL_ROW_WORDS];
static uint8_t store[1];

/* An unused result does not compile with -Werror. */
#ifdef UNUSED
#define RESULT
#else
#define RESULT const uint32_t result =
#endif

int main(void)
{
    struct bufpool m;
    char words[BUFPOOL_WHY_BYTES];
    if (bufpool_lend(&m, memory, sizeof memory, 1, 1, 1024, rows, 0) != BUFPOOL_DONE) return 4;
    m.store = store;
    m.control[BUFPOOL_CONTROL_AT_PAGE_SIZE] = 1024;
    m.control[BUFPOOL_CONTROL_AT_CAP] = BUFPOOL_DEFAULT_CAP; /* all else is 0: one empty buffer, which is the free list */
    m.free[0] = m.heads[0] = m.chain[0] = -1;
    if (bufpool_why(&m, words, sizeof words) != BUFPOOL_DONE || strcmp(words, "sound") != 0) return 1;
    m.control[BUFPOOL_CONTROL_AT_HAND] = 1;
    if (bufpool_why_set_up(&m, 1024, 1, words, sizeof words) != BUFPOOL_DONE || strcmp(words, "sound") != 0) return 2;
    if (bufpool_why_set_up(&m, 1024, 0, words, sizeof words) != BUFPOOL_BAD_CAP) return 5;
    RESULT bufpool_why(&m, words, sizeof words);
#ifndef UNUSED
    if (result != BUFPOOL_BOOKS) return 3;
#endif
    return strcmp(words, "rule 4.1: the hand is at buffer 1, and there are 1 buffers") == 0 ? 0 : 4;
}
