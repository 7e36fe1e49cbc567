/* A program in C or C++ that includes the header first, and twice, and calls its function. Status 0 if it answers right. */
#include "bufbooks.h"
#include "bufbooks.h"
#include "../layout.h"

#define BUFFERS 1
#define BUCKETS 1
#define PAGE 1024

static uint64_t control[CONTROL_WORDS] = {PAGE, 0, 0, 100, 100, 5}, answer[ANSWER_WORDS];
static uint32_t states[BUFFERS], names[NAME_WORDS * BUFFERS], rows[ROW_WORDS];
static int32_t links[BUFFERS] = {-1}, heads[BUCKETS] = {-1}, chain[BUFFERS] = {-1};
static uint8_t pool[PAGE], store[1];
static uint16_t counts[HOLDERS * BUFFERS];

/* one empty buffer, one bucket, no file; so many words of names and private counts */
static uint32_t check(uint64_t names_len, uint64_t counts_len)
{
    return bufbooks_check(control, CONTROL_WORDS, states, BUFFERS, names, names_len, pool, sizeof pool, links, BUFFERS, heads, BUCKETS,
                          chain, BUFFERS, rows, 0, store, 0, counts, counts_len, answer, ANSWER_WORDS);
}

int main(void)
{
    uint32_t sound = check(NAME_WORDS, HOLDERS), sizes = check(NAME_WORDS - 1, HOLDERS), fewer = check(NAME_WORDS, HOLDERS - 1);
    uint32_t books, cap, pinned;
    control[CONTROL_TOP] = (uint64_t)1 << 32;
    books = check(NAME_WORDS, HOLDERS);
    control[CONTROL_TOP] = 0;
    control[CONTROL_CAP] = 0;
    cap = check(NAME_WORDS, HOLDERS);
    control[CONTROL_CAP] = 5;
    counts[HOLDERS - 1] = 1;
    pinned = check(NAME_WORDS, HOLDERS);
    if (sound != BUFBOOKS_SOUND || sizes != BUFBOOKS_SIZES || fewer != BUFBOOKS_SIZES) return 1;
    return books == BUFBOOKS_BOOKS && cap == BUFBOOKS_BOOKS && pinned == BUFBOOKS_BOOKS ? 0 : 1;
}
