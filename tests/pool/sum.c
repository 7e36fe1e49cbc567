#include "sum.h"

#ifndef SUM_SLIP
#define SUM_SLIP 0
#endif

enum { SUMS = 32, WORD = 4 };

static const uint32_t starts[SUMS] = {
    0x5B1F36E9, 0xB8525960, 0x02AB50AA, 0x1DE66D2A, 0x79FF467A, 0x9BB9F8A3, 0x217E7CD2, 0x83E13D2C,
    0xF8D4474F, 0xE39EB970, 0x42C6AE16, 0x993216FA, 0x7B093B5D, 0x98DAFF3C, 0xF718902A, 0x0B1C9CDB,
    0xE58F764B, 0x187636BC, 0x5D7B3BB1, 0xE73DE7DE, 0x92BEC979, 0xCCA6C0B2, 0x304A0979, 0x85AA43D4,
    0x783125BB, 0x6CA8EAA2, 0xE407EAC6, 0x4B5CFC3E, 0x9FBF8C76, 0x15CA20BE, 0xF2CA9FD3, 0x959BD756 ^ (SUM_SLIP == 1),
};

/* A word of the page, low byte first; the checksum's own bytes count as zeros. */
static uint32_t word_at(const uint8_t *page, size_t at)
{
    uint32_t word = 0;
    for (size_t k = WORD; k-- > 0;) {
        bool own = at + k >= SUM_AT && at + k < SUM_AT + SUM_BYTES && SUM_SLIP != 3;
        word = word << 8 | (own ? 0 : page[at + k]);
    }
    return word;
}

static uint32_t mix(uint32_t sum, uint32_t word)
{
    uint32_t t = sum ^ word;
    return (t * 16777619u) ^ (t >> (SUM_SLIP == 6 ? 16 : 17));
}

/* Sum j goes over the page's words j, j + 32, j + 64 and so on, and over two zeros. */
static uint32_t sum_of(const uint8_t *page, size_t size, size_t j)
{
    uint32_t sum = starts[j];
    for (size_t k = j; k < size / WORD; k += SUMS) sum = mix(sum, word_at(page, WORD * k));
    for (int k = 0; k < (SUM_SLIP == 2 ? 1 : 2); k++) sum = mix(sum, 0);
    return sum;
}

uint32_t page_sum(const uint8_t *page, size_t size, uint32_t block)
{
    uint32_t all = SUM_SLIP == 4 ? 0 : block;
    for (size_t j = 0; j < SUMS; j++) all ^= sum_of(page, size, j);
    return SUM_SLIP == 5 ? all % 65536 : all % 65535 + 1;
}

uint32_t sum_in(const uint8_t *page)
{
    return page[SUM_AT] + page[SUM_AT + 1] * 256u;
}

void put_sum(uint8_t *page, uint32_t sum)
{
    page[SUM_AT] = (uint8_t)(sum % 256);
    page[SUM_AT + 1] = (uint8_t)(sum / 256);
}

bool is_zeros(const uint8_t *bytes, size_t many)
{
    for (size_t k = 0; k < many; k++)
        if (bytes[k] != 0) return false;
    return true;
}
