/* Hashes that the test of the machine code has to notice: one of 20 bytes in memory, and one whose last step is a function elsewhere. Both
   multiply for each byte. */
#include <stdint.h>

uint32_t elsewhere(uint32_t h);
uint32_t spread_hash(uint32_t t, uint32_t d, uint32_t r, uint32_t f, uint32_t b);
uint32_t other_hash(uint32_t t, uint32_t d, uint32_t r, uint32_t f, uint32_t b);

#define BYTE(h, byte) (((h) ^ (byte)) * 16777619u)
#define BYTES(h, a, b, c, d) BYTE(BYTE(BYTE(BYTE(h, a), b), c), d)
#define WORD(h, w) BYTES(h, (w) & 255, (w) >> 8 & 255, (w) >> 16 & 255, (w) >> 24)
#define SPREAD(w) (uint8_t)(w), (uint8_t)((w) >> 8), (uint8_t)((w) >> 16), (uint8_t)((w) >> 24)
#define STORED(h, k) BYTES(h, bytes[k], bytes[(k) + 1], bytes[(k) + 2], bytes[(k) + 3])

uint32_t spread_hash(uint32_t t, uint32_t d, uint32_t r, uint32_t f, uint32_t b)
{
    volatile uint8_t bytes[] = {SPREAD(t), SPREAD(d), SPREAD(r), SPREAD(f), SPREAD(b)};
    uint32_t h = STORED(STORED(STORED(2166136261u, 0), 4), 8);
    return STORED(STORED(h, 12), 16);
}

uint32_t other_hash(uint32_t t, uint32_t d, uint32_t r, uint32_t f, uint32_t b)
{
    uint32_t h = WORD(WORD(WORD(2166136261u, t), d), r);
    return elsewhere(WORD(WORD(h, f), b));
}
