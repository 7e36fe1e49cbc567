/* The hash of a page name, a word at a time: a multiplication for each byte, written out, since of a loop over a word's bytes gcc -O2 makes
   code that takes up to 1.7 times as long. */
#include "plain.h"

static uint32_t mix_byte(uint32_t h, uint32_t byte)
{
    return (h ^ byte) * 16777619u;
}

static uint32_t mix(uint32_t h, uint32_t w)
{
    return mix_byte(mix_byte(mix_byte(mix_byte(h, w & 255), w >> 8 & 255), w >> 16 & 255), w >> 24);
}

uint32_t plain_hash(uint32_t tablespace, uint32_t database, uint32_t relation, uint32_t fork, uint32_t block)
{
    return mix(mix(mix(mix(mix(2166136261u, tablespace), database), relation), fork), block);
}

/* The upper bytes of a fork below 256 and of a block below 65,536 are zeros, which only multiply: by the prime's fourth and third power. */
uint32_t short_hash(uint32_t tablespace, uint32_t database, uint32_t relation, uint32_t fork, uint32_t block)
{
    uint32_t h = mix(mix(mix(2166136261u, tablespace), database), relation);
    h = fork < 256 ? (h ^ fork) * 1345077009u : mix(h, fork);
    return block < 65536 ? (mix_byte(h, block & 255) ^ block >> 8) * 1055306571u : mix(h, block);
}
