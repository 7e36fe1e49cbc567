/* Page checksums as a good C programmer would write them at first for x86-64, where words have the low byte first: row by row over 32
   sums, of which the compiler makes vectors. */
#include "plain.h"
#include <string.h>

enum { SUMS = 32, SUM_AT = 8 };

static const uint32_t STARTS[SUMS] = {
    0x5B1F36E9, 0xB8525960, 0x02AB50AA, 0x1DE66D2A, 0x79FF467A, 0x9BB9F8A3, 0x217E7CD2, 0x83E13D2C,
    0xF8D4474F, 0xE39EB970, 0x42C6AE16, 0x993216FA, 0x7B093B5D, 0x98DAFF3C, 0xF718902A, 0x0B1C9CDB,
    0xE58F764B, 0x187636BC, 0x5D7B3BB1, 0xE73DE7DE, 0x92BEC979, 0xCCA6C0B2, 0x304A0979, 0x85AA43D4,
    0x783125BB, 0x6CA8EAA2, 0xE407EAC6, 0x4B5CFC3E, 0x9FBF8C76, 0x15CA20BE, 0xF2CA9FD3, 0x959BD756,
};

static uint32_t mix(uint32_t sum, uint32_t word)
{
    uint32_t t = sum ^ word;
    return t * 16777619u ^ t >> 17;
}

static void mix_row(uint32_t *sums, const uint32_t *row)
{
    for (int j = 0; j < SUMS; j++) sums[j] = mix(sums[j], row[j]);
}

/* In the first row the checksum's own bytes count as zeros. */
static uint32_t page_sum(const uint8_t *page, size_t size, uint32_t block)
{
    uint32_t sums[SUMS], row[SUMS], all = 0;
    memcpy(sums, STARTS, sizeof sums);
    memcpy(row, page, sizeof row);
    memset((uint8_t *)row + SUM_AT, 0, 2);
    mix_row(sums, row);
    for (size_t at = sizeof row; at < size; at += sizeof row) {
        memcpy(row, page + at, sizeof row);
        mix_row(sums, row);
    }
    for (int j = 0; j < SUMS; j++) all ^= mix(mix(sums[j], 0), 0);
    return (all ^ block) % 65535 + 1;
}

static bool is_zeros(const uint8_t *page, size_t size)
{
    return page[0] == 0 && memcmp(page, page + 1, size - 1) == 0;
}

void plain_seal(uint8_t *page, size_t size, uint32_t block)
{
    if (is_zeros(page, size)) return;
    uint32_t sum = page_sum(page, size, block);
    page[SUM_AT] = (uint8_t)sum;
    page[SUM_AT + 1] = (uint8_t)(sum >> 8);
}

/* No checksum is 0: without one, only zeros pass. */
bool plain_passes(const uint8_t *page, size_t size, uint32_t block)
{
    uint32_t sum = page[SUM_AT] | (uint32_t)page[SUM_AT + 1] << 8;
    return sum == 0 ? is_zeros(page, size) : sum == page_sum(page, size, block);
}

uint32_t plain_checksum(const uint8_t *page, uint64_t page_len, uint32_t block, uint64_t *answer, uint64_t answer_len)
{
    bool is_size = page_len >= BUFPOOL_MIN_PAGE && page_len <= BUFPOOL_MAX_PAGE && (page_len & (page_len - 1)) == 0;
    if (answer_len != BUFPOOL_ANSWER_WORDS) return BUFPOOL_SIZES;
    memset(answer, 0, BUFPOOL_ANSWER_WORDS * sizeof *answer);
    if (!is_size) return BUFPOOL_SIZES;
    answer[0] = page_sum(page, page_len, block);
    return BUFPOOL_DONE;
}
